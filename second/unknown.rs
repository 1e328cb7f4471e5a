// Books that know a predicate no more: its clauses are taken out, so that only bodies use it; or their heads get an argument more, which is refused
// where a body or the query has it too.
use crate::build::constant;
use crate::dice::Dice;
use crate::image;
use crate::item::Case;
use crate::read::{self, Profile};
use crate::tree::Clause;

/// The case with such a book, if its own is good and has a clause. A clause by the dice has the predicate.
pub fn made(case: Case, dice: &mut Dice) -> Case {
    let Ok(mut clauses) = read::book(Profile::Plain, &case.book) else { return case };
    if clauses.is_empty() {
        return case;
    }
    let head = clauses[dice.below(clauses.len() as u32) as usize].head.clone();
    let gone = |clause: &Clause| clause.head.same_predicate(&head);
    if dice.once_in(2) || head.arguments.len() == 8 {
        clauses.retain(|clause| !gone(clause));
    } else {
        clauses.iter_mut().filter(|clause| gone(clause)).for_each(|clause| clause.head.arguments.push(constant(0)));
    }
    Case { book: image::of_book(&clauses), ..case }
}
