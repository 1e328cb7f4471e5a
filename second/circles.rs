// Circles of rules, with a way into them on which the goal grows long and then short again, bodies whose first formulas are solved before the circle
// goes on, formulas that heap up, and arguments that turn from rule to rule.
use crate::build::{case, clause, constant, formula, variable};
use crate::dice::Dice;
use crate::item::Case;
use crate::tree::{Clause, Formula, Tree};

/// Solved in one step, in two, and never.
const FACT: u32 = 101;
const LONGER: u32 = 102;
const BEHIND: u32 = 103;

fn solved(dice: &mut Dice, most: u32) -> Vec<Formula> {
    (0..dice.below(most + 1)).map(|_| formula(if dice.once_in(3) { LONGER } else { FACT }, vec![])).collect()
}

fn facts() -> Vec<Clause> {
    let fact = || formula(FACT, vec![]);
    vec![clause(fact(), vec![]), clause(formula(LONGER, vec![]), vec![fact()])]
}

/// The variables below `arity`, from one of them on.
fn turned(arity: u32, by: u32) -> Vec<Tree> {
    (0..arity).map(|i| variable((i + by) % arity)).collect()
}

/// p(X,Y,..) :- solved, next(Y,..,X), behind.
fn rule(dice: &mut Dice, from: u32, to: u32, arity: u32, long: u32) -> Clause {
    let turn = if dice.once_in(3) { dice.below(4) } else { 0 };
    let mut body = solved(dice, long);
    body.push(formula(to, turned(arity, turn)));
    body.extend((0..dice.below(3)).map(|_| formula(BEHIND, vec![])));
    clause(formula(from, turned(arity, 0)), body)
}

pub fn random(dice: &mut Dice) -> Case {
    let (way, circle, arity) = (dice.below(5), dice.from(1, 6), dice.below(4));
    let long = dice.below(8);
    let mut clauses = facts();
    for i in 0..way + circle {
        let to = if i + 1 < way + circle { i + 1 } else { way };
        clauses.push(rule(dice, i, to, arity, long));
    }
    dice.shuffle(&mut clauses);
    let arguments = (0..arity).map(|i| if dice.once_in(3) { variable(i / 2) } else { constant(dice.below(3)) }).collect();
    let mut goal = solved(dice, 20);
    goal.push(formula(0, arguments));
    goal.extend((0..dice.below(4)).map(|_| formula(BEHIND, vec![])));
    case(&clauses, &goal, 400, dice)
}
