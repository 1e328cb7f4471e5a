// Unification by a list of equations, with the occur check.
use crate::tree::{Formula, Term, Tree};
use std::collections::HashSet;
use std::rc::Rc;

/// Solved equations `variable = term`, by the variable's number; a term may hold variables that are solved in their turn.
pub struct Solution {
    solved: Vec<Option<Tree>>,
}

impl Solution {
    fn of(&self, number: u32) -> Option<&Tree> {
        self.solved.get(number as usize)?.as_ref()
    }

    /// The term itself, or what its variable was found to be.
    pub fn value(&self, tree: &Tree) -> Tree {
        let mut tree = tree;
        while let Term::Variable(number) = &**tree {
            match self.of(*number) {
                Some(found) => tree = found,
                None => break,
            }
        }
        tree.clone()
    }

    fn set(&mut self, number: u32, tree: Tree) {
        let place = number as usize;
        if self.solved.len() <= place {
            self.solved.resize(place + 1, None);
        }
        self.solved[place] = Some(tree);
    }

    /// Does the variable stand in the term, once the solved equations are put in? A variable's own term is looked into once.
    fn occurs(&self, number: u32, tree: &Tree, looked: &mut HashSet<u32>) -> bool {
        match &**tree {
            Term::Variable(other) if *other == number => true,
            Term::Variable(other) => match self.of(*other) {
                Some(found) => looked.insert(*other) && self.occurs(number, found, looked),
                None => false,
            },
            Term::Constant(_) => false,
            Term::Compound(_, inner) => inner.iter().any(|t| self.occurs(number, t, looked)),
        }
    }
}

/// A most general unifier of two formulas, if there is one.
pub fn unify(a: &Formula, b: &Formula) -> Option<Solution> {
    if !a.same_predicate(b) {
        return None;
    }
    let mut found = Solution { solved: Vec::new() };
    let mut equations: Vec<(Tree, Tree)> = Vec::new();
    // The same two subtrees need not be made equal a second time: without this doubled terms take for ever.
    let mut done: HashSet<(*const Term, *const Term)> = HashSet::new();
    equations.extend(a.arguments.iter().cloned().zip(b.arguments.iter().cloned()).rev());
    while let Some((left, right)) = equations.pop() {
        let (left, right) = (found.value(&left), found.value(&right));
        match (&*left, &*right) {
            (Term::Variable(x), Term::Variable(y)) if x == y => {}
            (Term::Variable(x), _) => {
                if found.occurs(*x, &right, &mut HashSet::new()) {
                    return None;
                }
                found.set(*x, right);
            }
            (_, Term::Variable(_)) => equations.push((right, left)),
            (Term::Constant(x), Term::Constant(y)) if x == y => {}
            (Term::Compound(f, x), Term::Compound(g, y)) if f == g && x.len() == y.len() => {
                if done.insert((Rc::as_ptr(&left), Rc::as_ptr(&right))) {
                    equations.extend(x.iter().cloned().zip(y.iter().cloned()).rev());
                }
            }
            _ => return None,
        }
    }
    Some(found)
}
