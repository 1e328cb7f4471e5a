// The flat profile (document 02, C-20): the check of a book with its counts; and inputs in which few compound terms are left.
use crate::build;
use crate::dice::Dice;
use crate::image;
use crate::item::Case;
use crate::read::{self, Profile, Refusal};
use crate::tree::{Clause, Formula, Term, Tree};
use std::collections::HashSet;

/// "How many distinct predicates and constants the book has": a predicate is a number with its arity.
struct Counts {
    clauses: usize,
    predicates: usize,
    constants: usize,
}

fn formulas(clauses: &[Clause]) -> impl Iterator<Item = &Formula> {
    clauses.iter().flat_map(|clause| [&clause.head].into_iter().chain(&clause.body))
}

fn constant(tree: &Tree) -> Option<u16> {
    if let Term::Constant(number) = **tree { Some(number) } else { None }
}

fn counts(book: &[u8]) -> Result<Counts, Refusal> {
    let clauses = read::book(Profile::Flat, book)?;
    let predicates: HashSet<(u16, usize)> = formulas(&clauses).map(|f| (f.predicate, f.arguments.len())).collect();
    let constants: HashSet<u16> = formulas(&clauses).flat_map(|f| f.arguments.iter().filter_map(constant)).collect();
    Ok(Counts { clauses: clauses.len(), predicates: predicates.len(), constants: constants.len() })
}

/// Code, place, clauses, predicates and constants.
pub fn line(book: &[u8]) -> String {
    match counts(book) {
        Ok(c) => format!("0 0 {} {} {}", c.clauses, c.predicates, c.constants),
        Err(refusal) => format!("{} {} 0 0 0", refusal.code, refusal.place),
    }
}

/// For C: the code; the place of a fault or the clauses; the predicates and the constants, 16 bits each.
pub fn number(book: &[u8]) -> u64 {
    match counts(book) {
        Ok(c) => ((c.constants * 65536 + c.predicates) as u64) << 32 | (c.clauses as u64) << 8,
        Err(refusal) => refusal.code as u64 + refusal.place as u64 * 256,
    }
}

/// A term in which most compound terms are a constant or a variable.
fn flatter(tree: &Tree, dice: &mut Dice) -> Tree {
    match &**tree {
        Term::Compound(symbol, inner) if dice.once_in(20) => {
            build::compound(*symbol as u32, inner.iter().map(|t| flatter(t, dice)).collect())
        }
        Term::Compound(symbol, _) if dice.once_in(3) => build::variable(*symbol as u32 % 8),
        Term::Compound(symbol, _) => build::constant(*symbol as u32),
        _ => tree.clone(),
    }
}

fn flatter_formula(f: &Formula, dice: &mut Dice) -> Formula {
    build::formula(f.predicate as u32, f.arguments.iter().map(|t| flatter(t, dice)).collect())
}

/// The case with such a book and query, if its own are good; with no compound term at all, mostly.
pub fn made(case: Case, dice: &mut Dice) -> Case {
    let Ok(clauses) = read::book(Profile::Plain, &case.book) else { return case };
    let Ok(goal) = read::query(Profile::Plain, &clauses, &case.query) else { return case };
    let mut all = |fs: &[Formula]| -> Vec<Formula> { fs.iter().map(|f| flatter_formula(f, dice)).collect() };
    let flat = |c: Clause| {
        let both = all(&[&[c.head][..], &c.body].concat());
        build::clause(both[0].clone(), both[1..].to_vec())
    };
    let clauses: Vec<Clause> = clauses.into_iter().map(flat).collect();
    let query = image::of(&build::goal(&all(&goal)));
    Case { book: image::of_book(&clauses), query, ..case }
}
