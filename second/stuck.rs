// Formulas that no head fits: heads that agree with them up to some argument, and then clash, by themselves or by a variable that stands at two places, or
// fail by the occur check; among clauses of other predicates; at once, or after some steps.
use crate::build::{case, clause, compound, constant, formula, goal, tower, variable};
use crate::dice::Dice;
use crate::item::Case;
use crate::path::fit;
use crate::tree::{Clause, Formula, Term, Tree};

const FORMULA: u32 = 1;
const OTHER: u32 = 2;
const SHORTER: u32 = 4;
const COUNTING: u32 = 3;

/// An argument of the formula: a constant of its own, or something of one of three variables.
fn argument(dice: &mut Dice, place: u32) -> Tree {
    match dice.below(6) {
        0 | 1 => constant(place),
        2 => compound(1, vec![variable(dice.below(3))]),
        3 => compound(2, vec![constant(place), variable(dice.below(3))]),
        _ => variable(dice.below(3)),
    }
}

/// The same with the head's variables for the formula's.
fn copy(tree: &Tree) -> Tree {
    match &**tree {
        Term::Variable(number) => variable(10 + number),
        Term::Constant(_) => tree.clone(),
        Term::Compound(symbol, inner) => compound(*symbol as u32, inner.iter().map(copy).collect()),
    }
}

/// An argument of a head: mostly one that agrees.
fn matching(dice: &mut Dice, tree: &Tree, place: u32) -> Tree {
    let before = variable(if dice.once_in(2) { dice.below(place + 1) } else { dice.from(10, 12) });
    match dice.below(16) {
        0 => before,
        1 => compound(1, vec![before]),
        2 => compound(2, vec![constant(place), before]),
        3 => constant(if dice.once_in(2) { 9 } else { place }),
        4..9 => variable(place),
        _ => copy(tree),
    }
}

fn heads(dice: &mut Dice, leftmost: &Formula) -> Vec<Formula> {
    let head = |dice: &mut Dice| (0..).zip(&leftmost.arguments).map(|(place, tree)| matching(dice, tree, place)).collect();
    (0..dice.from(1, 8)).map(|_| formula(FORMULA, head(dice))).collect()
}

/// Of another predicate, with as many arguments or one less: these take no part.
fn apart(dice: &mut Dice, head: &Formula) -> Formula {
    let mut arguments = head.arguments.clone();
    if dice.once_in(2) {
        return formula(OTHER, arguments);
    }
    arguments.pop();
    formula(SHORTER, arguments)
}

fn clauses(dice: &mut Dice, leftmost: &Formula) -> Vec<Clause> {
    let mut all = Vec::new();
    for head in heads(dice, leftmost) {
        if dice.once_in(3) {
            all.push(clause(apart(dice, &head), vec![]));
        }
        all.push(clause(head, vec![]));
    }
    // one of them fits once in a while, and then the formula behind is stuck
    if !dice.once_in(8) {
        let alone = goal(std::slice::from_ref(leftmost));
        all.retain(|clause| fit(clause, &alone).is_none());
    }
    all
}

/// `n(f(X)) :- n(X). n(a) :- the formula.`, before the other clauses, behind them, or on both sides.
fn counting(dice: &mut Dice, all: &mut Vec<Clause>, leftmost: &Formula) {
    let counted = |term: Tree| formula(COUNTING, vec![term]);
    let less = clause(counted(compound(1, vec![variable(0)])), vec![counted(variable(0))]);
    for rule in [less, clause(counted(constant(0)), vec![leftmost.clone()])] {
        let place = if dice.once_in(2) { 0 } else { all.len() };
        all.insert(place, rule);
    }
}

pub fn random(dice: &mut Dice) -> Case {
    let arity = dice.from(1, 8);
    let leftmost = formula(FORMULA, (0..arity).map(|place| argument(dice, place)).collect());
    let mut all = clauses(dice, &leftmost);
    let mut formulas = vec![leftmost.clone(), formula(OTHER, (0..arity).map(|place| variable(place % 2)).collect())];
    if dice.once_in(2) {
        counting(dice, &mut all, &leftmost);
        formulas[0] = formula(COUNTING, vec![tower(dice.from(1, 40))]);
    }
    case(&all, &formulas, 100, dice)
}
