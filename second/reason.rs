// Why no clause fits (document 02, C-19), from the definition.
use crate::tree::{Clause, Formula, Goal, moved, unused};
use crate::unify::unify;

/// The formula with its first k arguments alone.
fn beginning(formula: &Formula, k: usize) -> Formula {
    Formula { predicate: formula.predicate, arguments: formula.arguments[..k].to_vec() }
}

/// "The first argument at which the arguments up to and including it can't be unified together, counted from 1." The two share no variable.
fn failing(head: &Formula, formula: &Formula) -> Option<usize> {
    (1..=formula.arguments.len()).find(|k| unify(&beginning(formula, *k), &beginning(head, *k)).is_none())
}

/// "The clause that got furthest (lowest number on equal counts) and that argument", of the clauses that have the leftmost formula's predicate and arity.
pub fn furthest(clauses: &[Clause], goal: &Goal) -> (usize, usize) {
    let (mut clause, mut argument) = (0, 0);
    for (number, Clause { head, .. }) in clauses.iter().enumerate() {
        if !head.same_predicate(&goal[0]) {
            continue;
        }
        let here = failing(&moved(head, unused(goal)), &goal[0]).expect("a stuck goal, at which each head fails");
        if here > argument {
            (clause, argument) = (number, here);
        }
    }
    (clause, argument)
}
