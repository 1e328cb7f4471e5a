// The bytes: what a good book and a good query are, and which code and place another one has.
use crate::tree::{Clause, Formula, Goal, Term, Tree};
use std::collections::HashMap;
use std::rc::Rc;

pub struct Refusal {
    pub code: u8,
    pub place: u32,
}

/// What a book, a query and an answer differ in: codes, sizes, and whether variables are numbered by first appearance.
struct Limits {
    add: u8,
    nodes: u32,
    variables: u32,
    numbered: bool,
}

const IN_CLAUSE: Limits = Limits { add: 0, nodes: 256, variables: 64, numbered: true };
const IN_QUERY: Limits = Limits { add: 10, nodes: 4096, variables: u32::MAX, numbered: true };
const IN_ANSWER: Limits = Limits { numbered: false, ..IN_QUERY };

/// Whether compound terms may stand in the input (document 02, C-20).
#[derive(Clone, Copy, PartialEq)]
pub enum Profile {
    Plain,
    Flat,
}

/// The arity that each predicate number was met with.
type Arities = HashMap<u16, usize>;

struct Reader<'a> {
    bytes: &'a [u8],
    at: usize,
    limits: Limits,
    profile: Profile,
    nodes: u32,
    next: u32,
    arities: Arities,
}

impl Reader<'_> {
    fn bad<T>(&self, code: u8, place: usize) -> Result<T, Refusal> {
        Err(Refusal { code: code + self.limits.add, place: place as u32 })
    }

    /// Kind and body of the next record, if its kind is allowed and nothing is cut off.
    fn record(&mut self, allowed: &[u8]) -> Result<(usize, u8, Vec<u8>), Refusal> {
        let place = self.at;
        let Some(&kind) = self.bytes.get(place) else { return self.bad(2, place) };
        if !allowed.contains(&kind) {
            return self.bad(2, place);
        }
        if kind == 3 && self.profile == Profile::Flat {
            return self.bad(8, place);
        }
        let length = match kind {
            1 | 2 | 6 => 2,
            3 | 4 => 3,
            5 => 1,
            _ => 0,
        };
        let Some(body) = self.bytes.get(place + 1..place + 1 + length) else { return self.bad(3, place) };
        self.at += 1 + length;
        Ok((place, kind, body.to_vec()))
    }

    fn another_node(&mut self, place: usize) -> Result<(), Refusal> {
        self.nodes += 1;
        if self.nodes > self.limits.nodes { self.bad(5, place) } else { Ok(()) }
    }

    fn formula(&mut self) -> Result<Formula, Refusal> {
        let (place, _, body) = self.record(&[4])?;
        if body[2] > 8 {
            return self.bad(4, place);
        }
        self.another_node(place)?;
        self.one_arity(place, two(&body), body[2] as usize)?;
        let arguments = self.terms(body[2])?;
        Ok(Formula { predicate: two(&body), arguments })
    }

    /// "Refusals: 7 for the book and 17 for the query, at the second formula's record, the last check within a record" (document 02, C-18).
    fn one_arity(&mut self, place: usize, predicate: u16, arity: usize) -> Result<(), Refusal> {
        if *self.arities.entry(predicate).or_insert(arity) != arity { self.bad(7, place) } else { Ok(()) }
    }

    fn terms(&mut self, how_many: u8) -> Result<Vec<Tree>, Refusal> {
        (0..how_many).map(|_| self.term()).collect()
    }

    fn term(&mut self) -> Result<Tree, Refusal> {
        let (place, kind, body) = self.record(&[1, 2, 3])?;
        if kind == 3 && !(1..=8).contains(&body[2]) {
            return self.bad(4, place);
        }
        self.another_node(place)?;
        let number = two(&body);
        match kind {
            1 => self.variable(place, number as u32),
            2 => Ok(Rc::new(Term::Constant(number))),
            _ => Ok(Rc::new(Term::Compound(number, self.terms(body[2])?))),
        }
    }

    fn variable(&mut self, place: usize, number: u32) -> Result<Tree, Refusal> {
        if number >= self.limits.variables {
            return self.bad(5, place);
        }
        if self.limits.numbered && number > self.next {
            return self.bad(6, place);
        }
        self.next = self.next.max(number + 1);
        Ok(Rc::new(Term::Variable(number)))
    }

    fn nothing_more(&self) -> Result<(), Refusal> {
        if self.at < self.bytes.len() { self.bad(2, self.at) } else { Ok(()) }
    }
}

fn two(body: &[u8]) -> u16 {
    body[0] as u16 * 256 + body[1] as u16
}

pub fn book(profile: Profile, bytes: &[u8]) -> Result<Vec<Clause>, Refusal> {
    if bytes.len() > 32768 {
        return Err(Refusal { code: 5, place: 32768 });
    }
    let mut reader = Reader { bytes, at: 0, limits: IN_CLAUSE, profile, nodes: 0, next: 0, arities: Arities::new() };
    let mut clauses = Vec::new();
    loop {
        let (place, kind, body) = reader.record(&[5, 7])?;
        if kind == 7 {
            reader.nothing_more()?;
            return Ok(clauses);
        }
        if body[0] > 16 {
            return reader.bad(4, place);
        }
        if clauses.len() == 512 {
            return reader.bad(5, place);
        }
        reader.nodes = 0;
        reader.next = 0;
        let head = reader.formula()?;
        let body = (0..body[0]).map(|_| reader.formula()).collect::<Result<_, _>>()?;
        clauses.push(Clause { head, body });
    }
}

/// "In heads or bodies".
pub fn used(clauses: &[Clause]) -> Arities {
    let formulas = clauses.iter().flat_map(|clause| [&clause.head].into_iter().chain(&clause.body));
    formulas.map(|f| (f.predicate, f.arguments.len())).collect()
}

/// A query against the clauses of its book, which is good.
pub fn query(profile: Profile, clauses: &[Clause], bytes: &[u8]) -> Result<Goal, Refusal> {
    goal(IN_QUERY, profile, clauses, bytes)
}

/// An answer of a run: its variables have the closing goal's numbers, and others behind them (document 02, C-11).
pub fn answer(clauses: &[Clause], bytes: &[u8]) -> Result<Goal, Refusal> {
    goal(IN_ANSWER, Profile::Plain, clauses, bytes)
}

fn goal(limits: Limits, profile: Profile, clauses: &[Clause], bytes: &[u8]) -> Result<Goal, Refusal> {
    if bytes.len() > 16387 {
        return Err(Refusal { code: 15, place: 16387 });
    }
    let mut reader = Reader { bytes, at: 0, limits, profile, nodes: 0, next: 0, arities: used(clauses) };
    let (place, _, body) = reader.record(&[6])?;
    if two(&body) > 512 {
        return reader.bad(4, place);
    }
    let goal = (0..two(&body)).map(|_| reader.formula()).collect::<Result<_, _>>()?;
    reader.nothing_more()?;
    Ok(goal)
}
