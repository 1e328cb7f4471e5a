// Books and queries in which one formula has an argument more or less, or the predicate number of another (document 02, C-18).
use crate::build;
use crate::dice::Dice;
use crate::image;
use crate::item::Case;
use crate::read::{self, Profile};
use crate::tree::{Clause, Formula};

fn formulas(clauses: &mut [Clause]) -> impl Iterator<Item = &mut Formula> {
    clauses.iter_mut().flat_map(|clause| [&mut clause.head].into_iter().chain(&mut clause.body))
}

fn change(chosen: &mut Formula, number: u16, dice: &mut Dice) {
    match dice.below(3) {
        0 => chosen.predicate = number,
        1 if chosen.arguments.len() < 8 => chosen.arguments.push(build::constant(0)),
        _ => drop(chosen.arguments.pop()),
    }
}

/// The case with such a book or query, if its own are good. A formula by the dice is changed, and variables are numbered anew.
pub fn made(case: Case, dice: &mut Dice) -> Case {
    let Ok(mut clauses) = read::book(Profile::Plain, &case.book) else { return case };
    let Ok(mut goal) = read::query(Profile::Plain, &clauses, &case.query) else { return case };
    let mut all: Vec<&mut Formula> = formulas(&mut clauses).chain(&mut goal).collect();
    if all.is_empty() {
        return case;
    }
    let [number, chosen] = [0, 1].map(|_| dice.below(all.len() as u32) as usize);
    let number = all[number].predicate;
    change(all[chosen], number, dice);
    let clauses: Vec<Clause> = clauses.into_iter().map(|c| build::clause(c.head, c.body)).collect();
    Case { book: image::of_book(&clauses), query: image::of(&build::goal(&goal)), ..case }
}
