// Heads with deep terms and repeated variables, against formulas that are deep themselves. Both come from one skeleton with holes: the head has a
// variable in each hole, and the formula in each a copy of the hole's term, some of whose subterms are variables.
use crate::build::{case, clause, compound, constant, formula, variable};
use crate::dice::Dice;
use crate::item::Case;
use crate::tree::{Clause, Formula, Term, Tree};

/// A term of about so many nodes. One argument has most of them, and variables below `holes` stand at its leaves.
fn skeleton(dice: &mut Dice, nodes: u32, holes: u32) -> Tree {
    if nodes < 2 {
        return if holes > 0 && !dice.once_in(3) { variable(dice.below(holes)) } else { constant(dice.below(3)) };
    }
    let arity = dice.from(1, 3);
    let spine = dice.below(arity);
    let small = dice.below(4);
    let most = nodes.saturating_sub(1 + small * (arity - 1)).max(1);
    let inner = (0..arity).map(|i| skeleton(dice, if i == spine { most } else { small }, holes)).collect();
    compound(arity, inner)
}

/// The subterms that variables stand for; the variable of the n-th has the number `first` + n.
struct General {
    first: u32,
    often: u32,
    names: Vec<Tree>,
}

impl General {
    /// A variable for this subterm; rarely one that stands for another.
    fn name(&mut self, dice: &mut Dice, tree: &Tree) -> Tree {
        let known = self.names.len() as u32;
        if known > 0 && dice.once_in(60) {
            return variable(self.first + dice.below(known));
        }
        let found = self.names.iter().position(|n| n == tree);
        if let Some(at) = found.filter(|_| !dice.once_in(4)) {
            return variable(self.first + at as u32);
        }
        self.names.push(tree.clone());
        variable(self.first + known)
    }

    /// The term with variables for some of its subterms, and each hole filled.
    fn of(&mut self, dice: &mut Dice, tree: &Tree, fill: &[Tree]) -> Tree {
        if dice.once_in(self.often) {
            return self.name(dice, tree);
        }
        match &**tree {
            Term::Variable(hole) if !fill.is_empty() => self.of(dice, &fill[*hole as usize], &[]),
            Term::Compound(symbol, inner) => compound(*symbol as u32, inner.iter().map(|t| self.of(dice, t, fill)).collect()),
            _ => tree.clone(),
        }
    }
}

/// Another leaf somewhere: a constant that stands nowhere else, or a variable.
fn changed(dice: &mut Dice, tree: &Tree, variables: u32) -> Tree {
    match &**tree {
        Term::Compound(symbol, inner) => {
            let place = dice.below(inner.len() as u32) as usize;
            let mut inner = inner.clone();
            inner[place] = changed(dice, &inner[place], variables);
            compound(*symbol as u32, inner)
        }
        _ if variables > 0 && dice.once_in(2) => variable(dice.below(variables)),
        _ => constant(9),
    }
}

fn with_change(dice: &mut Dice, terms: &[Tree], variables: u32) -> Vec<Tree> {
    let place = dice.below(terms.len() as u32) as usize;
    let mut terms = terms.to_vec();
    terms[place] = changed(dice, &terms[place], variables);
    terms
}

/// A formula with up to eight of the variables, so that the next goal shows what they are; its predicate is one of that arity.
fn shown(dice: &mut Dice, predicate: u32, variables: u32) -> Formula {
    let arity = variables.min(dice.from(1, 8));
    formula(predicate * 10 + arity, (0..arity).map(|_| variable(dice.below(variables))).collect())
}

fn skeletons(dice: &mut Dice, n: u32, most: u32, holes: u32) -> Vec<Tree> {
    let mut all = Vec::new();
    for _ in 0..n {
        let nodes = dice.from(1, most);
        all.push(skeleton(dice, nodes, holes));
    }
    all
}

/// A rule for the head, after up to two whose heads differ from it at one leaf.
fn rules(dice: &mut Dice, head: Vec<Tree>, variables: u32) -> Vec<Clause> {
    let mut clauses = Vec::new();
    for _ in 0..dice.below(3) {
        clauses.push(clause(formula(1, with_change(dice, &head, variables)), vec![shown(dice, 2, variables)]));
    }
    clauses.push(clause(formula(1, head), vec![shown(dice, 2, variables), shown(dice, 3, variables)]));
    clauses
}

pub fn random(dice: &mut Dice) -> Case {
    let (arity, holes) = (dice.from(1, 3), dice.from(1, 4));
    let most = if dice.once_in(4) { 60 } else { 12 };
    let terms = skeletons(dice, arity, most, holes);
    let most = if dice.once_in(20) { 400 } else { 40 };
    let fill = skeletons(dice, holes, most, 0);
    let mut left = General { first: holes, often: dice.from(8, 60), names: Vec::new() };
    let head = terms.iter().map(|t| left.of(dice, t, &[])).collect();
    let mut right = General { first: 0, often: dice.from(5, 60), names: Vec::new() };
    let mut arguments: Vec<Tree> = terms.iter().map(|t| right.of(dice, t, &fill)).collect();
    let variables = right.names.len() as u32;
    if dice.once_in(4) {
        arguments = with_change(dice, &arguments, variables);
    }
    let clauses = rules(dice, head, holes + left.names.len() as u32);
    let mut goal = vec![formula(1, arguments)];
    if variables > 0 {
        goal.push(shown(dice, 4, variables));
    }
    case(&clauses, &goal, dice.from(0, 3), dice)
}
