// Rules and queries written as text (document 02, C-13): read by descent, formula by formula and term by term, into bytes and the list of names. Written from the
// documents, apart from the reader's definition.
use crate::namelist::{COMPOUND, CONSTANT, Names, PREDICATE};
use crate::read::{self, Profile};
use crate::scan::{Read, Refusal, Scan, starts_variable};
use std::collections::HashMap;

/// The bytes of a book or of a query, and those of the names.
#[derive(Debug, PartialEq)]
pub struct Texts {
    pub image: Vec<u8>,
    pub names: Vec<u8>,
}

/// What the codes of rules and of a query differ in.
struct Limits {
    add: u8,
    formulas: usize,
    nodes: usize,
    variables: usize,
}

const IN_CLAUSE: Limits = Limits { add: 0, formulas: 16, nodes: 256, variables: 64 };
const IN_QUERY: Limits = Limits { add: 10, formulas: 512, nodes: 4096, variables: usize::MAX };

/// What is counted in one clause, or in the query.
#[derive(Default)]
struct Counts {
    nodes: usize,
    variables: usize,
    named: HashMap<Vec<u8>, usize>,
}

struct Text<'a> {
    scan: Scan<'a>,
    limits: Limits,
    names: Names,
    counts: Counts,
    /// The arity that each predicate was met with, and where one was met with another.
    arities: HashMap<u16, usize>,
    other_arity: Option<usize>,
}

fn record(kind: u8, number: u16) -> Vec<u8> {
    [&[kind][..], &number.to_be_bytes()].concat()
}

impl<'a> Text<'a> {
    fn new(bytes: &'a [u8], limits: Limits, names: Names, arities: HashMap<u16, usize>) -> Self {
        Text { scan: Scan { bytes, at: 0 }, limits, names, counts: Counts::default(), arities, other_arity: None }
    }

    fn refused<T>(&self, code: u8, place: usize) -> Read<T> {
        Err(Refusal(code + self.limits.add, place))
    }

    fn node(&mut self) -> Read<()> {
        self.counts.nodes += 1;
        if self.counts.nodes > self.limits.nodes { self.refused(5, self.scan.at) } else { Ok(()) }
    }

    /// The arguments of a name whose bracket follows at once, and how many they are.
    fn arguments(&mut self) -> Read<(usize, Vec<u8>)> {
        let mut out = Vec::new();
        if self.scan.peek() != Some(b'(') {
            return Ok((0, out));
        }
        self.scan.at += 1;
        for n in 1.. {
            self.scan.skip();
            if !self.scan.peek().is_some_and(|b| b.is_ascii_lowercase() || starts_variable(b)) {
                return self.scan.unexpected();
            }
            if n > 8 {
                return self.refused(4, self.scan.at);
            }
            out.extend(self.term()?);
            if self.scan.mark(b')') {
                return Ok((n, out));
            }
            if !self.scan.mark(b',') {
                return self.scan.unexpected();
            }
        }
        unreachable!()
    }

    fn variable(&mut self) -> Read<Vec<u8>> {
        let (from, next) = (self.scan.at, self.counts.variables);
        let name = self.scan.word();
        let number = if name == b"_" { next } else { *self.counts.named.entry(name).or_insert(next) };
        if number >= self.limits.variables {
            return self.refused(5, from);
        }
        self.counts.variables = next.max(number + 1);
        Ok(record(1, number as u16))
    }

    fn term(&mut self) -> Read<Vec<u8>> {
        self.node()?;
        if self.scan.peek().is_some_and(starts_variable) {
            return self.variable();
        }
        let name = self.scan.name()?;
        if self.scan.peek() != Some(b'(') {
            return Ok(record(CONSTANT, self.names.number(CONSTANT, &name)));
        }
        let symbol = record(COMPOUND, self.names.number(COMPOUND, &name));
        let (arity, arguments) = self.arguments()?;
        Ok([symbol, vec![arity as u8], arguments].concat())
    }

    fn formula(&mut self) -> Read<Vec<u8>> {
        let from = self.scan.at;
        self.node()?;
        let name = self.scan.name()?;
        let number = self.names.number(PREDICATE, &name);
        let (arity, arguments) = self.arguments()?;
        if *self.arities.entry(number).or_insert(arity) != arity {
            self.other_arity.get_or_insert(from);
        }
        Ok([record(PREDICATE, number), vec![arity as u8], arguments].concat())
    }

    /// Formulas with commas between, one at least, and how many they are.
    fn formulas(&mut self) -> Read<(usize, Vec<u8>)> {
        let mut out = Vec::new();
        for n in 1.. {
            self.scan.skip();
            if !self.scan.peek().is_some_and(|b| b.is_ascii_lowercase()) {
                return self.scan.unexpected();
            }
            if n > self.limits.formulas {
                return self.refused(4, self.scan.at);
            }
            out.extend(self.formula()?);
            if !self.scan.mark(b',') {
                return Ok((n, out));
            }
        }
        unreachable!()
    }

    fn body(&mut self) -> Read<(usize, Vec<u8>)> {
        if !self.scan.mark(b':') {
            return Ok((0, Vec::new()));
        }
        if self.scan.peek() != Some(b'-') {
            return self.scan.unexpected();
        }
        self.scan.at += 1;
        self.formulas()
    }

    fn clause(&mut self) -> Read<Vec<u8>> {
        self.counts = Counts::default();
        let head = self.formula()?;
        let (formulas, body) = self.body()?;
        self.scan.stop()?;
        Ok([vec![5, formulas as u8], head, body].concat())
    }

    fn clauses(&mut self) -> Read<Vec<u8>> {
        let mut book = Vec::new();
        for n in 1.. {
            self.scan.skip();
            match self.scan.peek() {
                None => break,
                Some(b) if !b.is_ascii_lowercase() => return self.scan.unexpected(),
                _ if n > 512 => return self.refused(5, self.scan.at),
                _ => book.extend(self.clause()?),
            }
        }
        book.push(7);
        if book.len() > 32768 { self.refused(5, self.scan.bytes.len()) } else { Ok(book) }
    }

    /// A full stop at the end is allowed; no token is the empty goal.
    fn query(&mut self) -> Read<Vec<u8>> {
        self.scan.skip();
        if self.scan.peek().is_none() {
            return Ok(vec![6, 0, 0]);
        }
        let (formulas, out) = self.formulas()?;
        if self.scan.peek() == Some(b'.') {
            self.scan.stop()?;
            self.scan.skip();
        }
        if self.scan.peek().is_some() {
            return self.scan.unexpected();
        }
        Ok([record(6, formulas as u16), out].concat())
    }

    /// "7 just before 43, at that formula's first byte" (C-18).
    fn whole(self, image: Vec<u8>) -> Read<Texts> {
        match self.other_arity {
            Some(place) => self.refused(7, place),
            None => Ok(Texts { image, names: self.names.list() }),
        }
    }
}

fn not_too_long(text: &[u8]) -> Read<()> {
    if text.len() > 65536 { Err(Refusal(40, 0)) } else { Ok(()) }
}

pub fn rules(bytes: &[u8]) -> Read<Texts> {
    not_too_long(bytes)?;
    let mut text = Text::new(bytes, IN_CLAUSE, Names::default(), HashMap::new());
    let book = text.clauses()?;
    text.whole(book)
}

/// A query to a good book, by its list of names: "new names numbered after it".
pub fn query(bytes: &[u8], book: &[u8], list: &[u8]) -> Read<Texts> {
    let clauses = read::book(Profile::Plain, book).map_err(|r| Refusal(r.code, r.place as usize))?;
    let names = Names::read(list).filter(Names::in_turn).ok_or(Refusal(45, 0))?;
    not_too_long(bytes)?;
    let mut text = Text::new(bytes, IN_QUERY, names, read::used(&clauses));
    let goal = text.query()?;
    text.whole(goal)
}

/// What is read laid into two areas; "last 43, area too small for the finished book or names".
pub fn laid(read: Read<Texts>, area: &mut [u8], list: &mut [u8]) -> Read<(usize, usize)> {
    let Texts { image, names } = read?;
    if image.len() > area.len() || names.len() > list.len() {
        return Err(Refusal(43, 0));
    }
    area[..image.len()].copy_from_slice(&image);
    list[..names.len()].copy_from_slice(&names);
    Ok((image.len(), names.len()))
}
