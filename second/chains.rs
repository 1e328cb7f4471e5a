// Chains of equations in any order: X0 = f(X1), X1 = g(X2,X5), .., with a constant or a variable at the end, some closed to a circle. They stand in the
// query, in the head, or half in each.
use crate::build::{case, clause, compound, constant, formula, row, variable};
use crate::dice::Dice;
use crate::item::Case;
use crate::tree::Tree;

/// What the variable i is made equal to: something of later variables.
fn side(dice: &mut Dice, i: u32, n: u32) -> Tree {
    let next = variable(i + 1);
    match dice.below(6) {
        0 => next,
        1 => compound(2, vec![next.clone(), next]),
        2 => compound(2, vec![variable(dice.from(i + 1, n)), variable(dice.from(i + 1, n))]),
        3 => compound(1, vec![compound(1, vec![next])]),
        _ => compound(1, vec![next]),
    }
}

fn equations(dice: &mut Dice, n: u32) -> Vec<(Tree, Tree)> {
    let mut all: Vec<(Tree, Tree)> = (0..n).map(|i| (variable(i), side(dice, i, n))).collect();
    if dice.once_in(2) {
        all.push((variable(n), constant(1)));
    }
    match dice.below(6) {
        // often too deep for anything but the occur check to see
        0 => all.push((variable(dice.from(n / 2, n)), compound(1, vec![variable(dice.below(n / 2 + 1))]))),
        1 => all.push((variable(dice.below(n + 1)), variable(dice.below(n + 1)))),
        2 => all.push((variable(dice.below(n + 1)), constant(dice.from(1, 2)))),
        _ => {}
    }
    dice.shuffle(&mut all);
    all.into_iter().map(|(l, r)| if dice.once_in(2) { (l, r) } else { (r, l) }).collect()
}

pub fn random(dice: &mut Dice) -> Case {
    let way = dice.below(3);
    let n = if way == 0 && dice.once_in(30) { dice.from(100, 500) } else { dice.from(1, 20) };
    let all = equations(dice, n);
    let (lefts, rights) = (row(all.iter().map(|e| e.0.clone())), row(all.iter().map(|e| e.1.clone())));
    let variables = row((0..=n).map(variable));
    let some: Vec<Tree> = (0..dice.from(1, 8)).map(|_| variable(dice.below(n + 1))).collect();
    let (head, body, goal) = match way {
        0 => (vec![variable(0), variable(0)], vec![], vec![lefts, rights]),
        1 => (vec![lefts, rights], vec![formula(2, some.clone())], vec![variable(0), variable(0)]),
        _ => (vec![variables.clone(), lefts], vec![formula(2, some.clone())], vec![variables, rights]),
    };
    let behind = if way == 1 { vec![variable(0), variable(1)] } else { some };
    case(&[clause(formula(1, head), body)], &[formula(1, goal), formula(3, behind)], dice.below(3), dice)
}
