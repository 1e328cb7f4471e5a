// A book or a goal printed with its names (document 02, C-14): trees to text, "spaced as in P1".
use crate::namelist::{COMPOUND, CONSTANT, Names, PREDICATE};
use crate::read::{self, Profile, Refusal};
use crate::tree::{Clause, Formula, Goal, Term, Tree};

type Read<T> = Result<T, Refusal>;

fn refused(code: u8) -> Refusal {
    Refusal { code, place: 0 }
}

struct Pen {
    names: Names,
    out: Vec<u8>,
}

impl Pen {
    /// "45 a list not in C-13's form or a name shared by two symbols of one sort".
    fn new(list: &[u8]) -> Read<Pen> {
        let names = Names::read(list).ok_or(refused(45))?;
        Ok(Pen { names, out: Vec::new() })
    }

    fn put(&mut self, text: &str) {
        self.out.extend(text.as_bytes());
    }

    /// A name and its arguments; "44 a used symbol has no name".
    fn applied(&mut self, kind: u8, number: u16, arguments: &[Tree]) -> Read<()> {
        self.out.extend(self.names.of(kind, number).ok_or(refused(44))?);
        for (n, argument) in arguments.iter().enumerate() {
            self.put(if n == 0 { "(" } else { "," });
            self.term(argument)?;
        }
        self.put(if arguments.is_empty() { "" } else { ")" });
        Ok(())
    }

    fn term(&mut self, tree: &Tree) -> Read<()> {
        match &**tree {
            Term::Variable(number) => Ok(self.put(&format!("V{number}"))),
            Term::Constant(symbol) => self.applied(CONSTANT, *symbol, &[]),
            Term::Compound(symbol, inner) => self.applied(COMPOUND, *symbol, inner),
        }
    }

    fn formulas(&mut self, formulas: &[Formula]) -> Read<()> {
        for (n, formula) in formulas.iter().enumerate() {
            self.put(if n == 0 { "" } else { ", " });
            self.applied(PREDICATE, formula.predicate, &formula.arguments)?;
        }
        Ok(())
    }

    /// "One clause a line ended by LF".
    fn clause(&mut self, Clause { head, body }: &Clause) -> Read<()> {
        self.applied(PREDICATE, head.predicate, &head.arguments)?;
        self.put(if body.is_empty() { "" } else { " :- " });
        self.formulas(body)?;
        Ok(self.put(".\n"))
    }
}

pub fn book_text(book: &[u8], list: &[u8]) -> Read<Vec<u8>> {
    let clauses = read::book(Profile::Plain, book)?;
    let mut pen = Pen::new(list)?;
    clauses.iter().try_for_each(|clause| pen.clause(clause))?;
    Ok(pen.out)
}

/// On one line, without a full stop.
fn line(goal: &Goal, list: &[u8]) -> Read<Vec<u8>> {
    let mut pen = Pen::new(list)?;
    pen.formulas(goal)?;
    Ok(pen.out)
}

pub fn goal_text(book: &[u8], goal: &[u8], list: &[u8]) -> Read<Vec<u8>> {
    let clauses = read::book(Profile::Plain, book)?;
    line(&read::query(Profile::Plain, &clauses, goal)?, list)
}

/// An answer has the numbers that the run gave its variables.
pub fn answer_text(book: &[u8], answer: &[u8], list: &[u8]) -> Read<Vec<u8>> {
    let clauses = read::book(Profile::Plain, book)?;
    line(&read::answer(&clauses, answer)?, list)
}

/// The text at the area's front, and its length; "46 the text doesn't fit the text area or is over 65,536 bytes".
pub fn laid(text: Read<Vec<u8>>, area: &mut [u8]) -> Read<usize> {
    let text = text?;
    if text.len() > area.len() || text.len() > 65536 {
        return Err(refused(46));
    }
    area[..text.len()].copy_from_slice(&text);
    Ok(text.len())
}
