// Answers that grow while a count goes down: each step makes the query's variable a larger term, some variables of which only the answer has. At the count's end
// the path is solved, stuck, at a predicate that the book does not have, or in a circle. Some have an answer of 4,094 to 4,098 nodes at one of the steps.
use crate::build::{case, clause, compound, constant, formula, goal, tower, variable};
use crate::dice::Dice;
use crate::item::Case;
use crate::path::follow;
use crate::tree::{Clause, Formula, Tree, nodes};

const COUNTING: u32 = 1;
const TURNING: u32 = 2;
const UNKNOWN: u32 = 3;
const BEHIND: u32 = 4;
const SOLVED: u32 = 5;
const FILLING: u32 = 6;

/// The clause's variables: what is left of the count; what the query's variable is made of; and those of which the term has some, and the body perhaps none.
const LESS: u32 = 0;
const INNER: u32 = 1;
const OTHERS: u32 = 2;

fn leaf(dice: &mut Dice) -> Tree {
    match dice.below(4) {
        0 => constant(dice.below(3)),
        1 => variable(dice.from(OTHERS, OTHERS + 3)),
        _ => variable(INNER),
    }
}

/// A term that mostly has the inner variable, once or several times.
fn larger(dice: &mut Dice) -> Tree {
    match dice.below(6) {
        0 => variable(INNER),
        1 => compound(1, vec![variable(INNER)]),
        2 => compound(2, vec![variable(INNER), variable(INNER)]),
        3 => compound(2, vec![compound(1, vec![leaf(dice)]), variable(INNER)]),
        _ => compound(3, (0..dice.from(1, 4)).map(|_| leaf(dice)).collect()),
    }
}

fn counting(count: Tree, term: Tree) -> Formula {
    formula(COUNTING, vec![count, term])
}

/// d(s(N),larger) :- solved, d(N,X), behind.
fn less(dice: &mut Dice) -> Clause {
    let mut body: Vec<Formula> = (0..dice.below(4) / 2).map(|_| formula(SOLVED, vec![leaf(dice)])).collect();
    body.push(counting(variable(LESS), variable(INNER)));
    body.extend((0..dice.below(4) / 2).map(|_| formula(BEHIND, vec![leaf(dice), leaf(dice)])));
    clause(counting(compound(1, vec![variable(LESS)]), larger(dice)), body)
}

fn turn(dice: &mut Dice, to: u32) -> Formula {
    let inner = variable(INNER);
    if to == COUNTING || dice.once_in(2) { counting(constant(0), inner) } else { formula(to, vec![inner]) }
}

/// What d(a,..) comes to.
fn ends(dice: &mut Dice) -> Vec<Clause> {
    let head = |dice: &mut Dice| counting(constant(0), larger(dice));
    match dice.below(5) {
        0 => vec![],
        1 => vec![clause(counting(constant(1), variable(INNER)), vec![])],
        2 => vec![clause(head(dice), vec![formula(UNKNOWN, vec![variable(INNER)])])],
        3 => {
            let back = clause(formula(TURNING, vec![larger(dice)]), vec![counting(constant(0), variable(INNER))]);
            vec![clause(head(dice), vec![turn(dice, TURNING)]), back]
        }
        _ => vec![clause(head(dice), vec![])],
    }
}

fn book(dice: &mut Dice) -> Vec<Clause> {
    let mut clauses = vec![less(dice)];
    clauses.extend(ends(dice));
    clauses.push(clause(formula(SOLVED, vec![larger(dice)]), vec![]));
    if dice.once_in(2) {
        clauses.push(clause(formula(BEHIND, vec![larger(dice), variable(LESS)]), vec![]));
    }
    clauses
}

/// d(s(s(..a)),V), and formulas that have V too, or not.
fn query(dice: &mut Dice, count: u32) -> Vec<Formula> {
    let mut all = vec![counting(tower(count + 1), variable(0))];
    for _ in 0..dice.below(3) {
        all.push(formula(BEHIND, vec![variable(dice.below(3)), variable(dice.below(3))]));
    }
    all
}

/// A formula more, such that the answer has so many nodes at a step.
fn filled(clauses: &[Clause], mut formulas: Vec<Formula>, step: u32, target: u32) -> Vec<Formula> {
    let (_, _, state) = follow(clauses, goal(&formulas), step);
    let more = target.saturating_sub(nodes(&state.answer) as u32);
    if more > 1 {
        formulas.push(formula(FILLING, vec![tower(more - 1)]));
    }
    formulas
}

pub fn random(dice: &mut Dice) -> Case {
    let count = if dice.once_in(8) { dice.from(10, 60) } else { dice.below(10) };
    let clauses = book(dice);
    let mut formulas = query(dice, count);
    let step = dice.below(count + 2);
    if dice.once_in(6) {
        formulas = filled(&clauses, formulas, step, dice.from(4094, 4098));
    }
    let budget = if dice.once_in(4) { step + dice.below(3) } else { 200 };
    case(&clauses, &formulas, budget, dice)
}
