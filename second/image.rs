// A goal's image, and a book's: the records as bytes.
use crate::tree::{Clause, Formula, Goal, Term, Tree};

fn two(out: &mut Vec<u8>, number: usize) {
    out.extend([(number / 256) as u8, (number % 256) as u8]);
}

fn tree(out: &mut Vec<u8>, tree: &Tree) {
    match &**tree {
        Term::Variable(number) => {
            out.push(1);
            two(out, *number as usize);
        }
        Term::Constant(symbol) => {
            out.push(2);
            two(out, *symbol as usize);
        }
        Term::Compound(symbol, inner) => {
            out.push(3);
            two(out, *symbol as usize);
            out.push(inner.len() as u8);
            inner.iter().for_each(|t| self::tree(out, t));
        }
    }
}

fn formula(out: &mut Vec<u8>, formula: &Formula) {
    out.push(4);
    two(out, formula.predicate as usize);
    out.push(formula.arguments.len() as u8);
    formula.arguments.iter().for_each(|t| tree(out, t));
}

pub fn of(goal: &Goal) -> Vec<u8> {
    let mut out = vec![6];
    two(&mut out, goal.len());
    goal.iter().for_each(|f| formula(&mut out, f));
    out
}

pub fn of_book(clauses: &[Clause]) -> Vec<u8> {
    let mut out = Vec::new();
    for clause in clauses {
        out.extend([5, clause.body.len() as u8]);
        formula(&mut out, &clause.head);
        clause.body.iter().for_each(|f| formula(&mut out, f));
    }
    out.push(7);
    out
}
