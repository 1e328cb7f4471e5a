// Next goals of 510 to 514 formulas, and of 4,094 to 4,098 nodes.
use crate::build::{case, clause, compound, constant, formula, goal, tower, variable};
use crate::dice::Dice;
use crate::item::Case;
use crate::path::{Next, next_goal};
use crate::tree::{Clause, Formula, Tree, nodes};

fn formulas(dice: &mut Dice) -> Case {
    let (body, target) = (dice.below(17), dice.from(510, 514));
    let plain = |predicate: u32, n: u32| (0..n).map(|_| formula(predicate, vec![])).collect::<Vec<Formula>>();
    case(&[clause(formula(1, vec![]), plain(2, body))], &plain(1, target + 1 - body), 2, dice)
}

/// A formula whose variable the head makes larger, or which the body has several times; the formulas behind have the variable too.
fn grown(dice: &mut Dice) -> (Clause, Vec<Formula>) {
    let times = |dice: &mut Dice| (0..dice.from(1, 8)).map(|_| variable(0)).collect::<Vec<Tree>>();
    let behind = formula(4, times(dice));
    if dice.once_in(2) {
        let head = compound(2, vec![tower(dice.from(1, 100)), variable(0)]);
        return (clause(formula(1, vec![head]), vec![formula(2, times(dice))]), vec![formula(1, vec![variable(0)]), behind]);
    }
    let large = (0..dice.from(1, 300)).fold(variable(0), |t, _| compound(2, vec![constant(1), t]));
    (clause(formula(1, vec![variable(0)]), vec![formula(2, times(dice))]), vec![formula(1, vec![large]), behind])
}

/// The goal with a formula more, such that the next goal has so many nodes.
fn filled(clause: &Clause, mut formulas: Vec<Formula>, target: u32) -> Vec<Formula> {
    if let Next::Goal(_, next) = next_goal(std::slice::from_ref(clause), &goal(&formulas)) {
        let more = target.saturating_sub(nodes(&next) as u32);
        if more > 1 {
            formulas.push(formula(5, vec![tower(more - 1)]));
        }
    }
    formulas
}

pub fn random(dice: &mut Dice) -> Case {
    if dice.once_in(4) {
        return formulas(dice);
    }
    let (clause, formulas) = grown(dice);
    let formulas = filled(&clause, formulas, dice.from(4094, 4098));
    case(&[clause], &formulas, dice.below(3), dice)
}
