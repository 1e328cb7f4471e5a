// Books and queries from trees, whatever numbers their variables have.
use crate::dice::Dice;
use crate::image;
use crate::item::{Area, Case};
use crate::tree::{Clause, Formula, Goal, Term, Tree};
use std::collections::HashMap;
use std::rc::Rc;

pub fn variable(number: u32) -> Tree {
    Rc::new(Term::Variable(number))
}

pub fn constant(symbol: u32) -> Tree {
    Rc::new(Term::Constant(symbol as u16))
}

pub fn compound(symbol: u32, inner: Vec<Tree>) -> Tree {
    Rc::new(Term::Compound(symbol as u16, inner))
}

pub fn formula(predicate: u32, arguments: Vec<Tree>) -> Formula {
    Formula { predicate: predicate as u16, arguments }
}

/// c(first, c(second, .. a))
pub fn row(terms: impl DoubleEndedIterator<Item = Tree>) -> Tree {
    terms.rev().fold(constant(0), |rest, first| compound(7, vec![first, rest]))
}

/// f(f(.. a)) of so many nodes.
pub fn tower(nodes: u32) -> Tree {
    (1..nodes).fold(constant(0), |inner, _| compound(1, vec![inner]))
}

/// Variables numbered by first appearance.
#[derive(Default)]
struct Names(HashMap<u32, u32>);

impl Names {
    fn tree(&mut self, tree: &Tree) -> Tree {
        match &**tree {
            Term::Variable(number) => {
                let next = self.0.len() as u32;
                variable(*self.0.entry(*number).or_insert(next))
            }
            Term::Constant(_) => tree.clone(),
            Term::Compound(symbol, inner) => compound(*symbol as u32, inner.iter().map(|t| self.tree(t)).collect()),
        }
    }

    fn formula(&mut self, f: &Formula) -> Formula {
        formula(f.predicate as u32, f.arguments.iter().map(|t| self.tree(t)).collect())
    }
}

pub fn clause(head: Formula, body: Vec<Formula>) -> Clause {
    let mut names = Names::default();
    Clause { head: names.formula(&head), body: body.iter().map(|f| names.formula(f)).collect() }
}

pub fn goal(formulas: &[Formula]) -> Goal {
    let mut names = Names::default();
    formulas.iter().map(|f| names.formula(f)).collect()
}

pub fn case(clauses: &[Clause], formulas: &[Formula], budget: u32, dice: &mut Dice) -> Case {
    let (book, query) = (image::of_book(clauses), image::of(&goal(formulas)));
    Case { book, query, number: budget, area: Area::usual(dice), answer: Area::usual(dice) }
}
