// Document 01's notation for books and queries. Names get numbers from 0 by first appearance, separately for constants, compound
// terms and predicates; a query stands after `?-`, or is a text of its own.
use crate::tree::{Clause, Formula, Goal, Term, Tree};
use std::rc::Rc;

#[derive(Default)]
pub struct Names {
    constants: Vec<String>,
    compounds: Vec<String>,
    predicates: Vec<String>,
}

/// `name(first,second)`, or the name alone.
fn applied(name: &str, arguments: Vec<String>) -> String {
    if arguments.is_empty() { name.to_string() } else { format!("{name}({})", arguments.join(",")) }
}

impl Names {
    fn term(&self, term: &Tree) -> String {
        match &**term {
            Term::Variable(number) => format!("V{number}"),
            Term::Constant(symbol) => self.constants[*symbol as usize].clone(),
            Term::Compound(symbol, inner) => {
                applied(&self.compounds[*symbol as usize], inner.iter().map(|t| self.term(t)).collect())
            }
        }
    }

    /// A goal in the notation, with its variables by their numbers.
    pub fn goal(&self, goal: &Goal) -> String {
        let formula =
            |f: &Formula| applied(&self.predicates[f.predicate as usize], f.arguments.iter().map(|t| self.term(t)).collect());
        goal.iter().map(formula).collect::<Vec<_>>().join(", ")
    }
}

/// The name's number in its list, to which a new name is added.
fn number(list: &mut Vec<String>, name: &str) -> u16 {
    if let Some(at) = list.iter().position(|n| n == name) {
        return at as u16;
    }
    list.push(name.to_string());
    (list.len() - 1) as u16
}

pub struct Text<'a> {
    left: &'a str,
    names: &'a mut Names,
    variables: Vec<String>,
}

type Read<T> = Result<T, String>;

impl<'a> Text<'a> {
    pub fn new(text: &'a str, names: &'a mut Names) -> Self {
        Text { left: text, names, variables: Vec::new() }
    }

    fn skip(&mut self) {
        loop {
            self.left = self.left.trim_start();
            if !self.left.starts_with('%') {
                return;
            }
            self.left = self.left.split_once('\n').map_or("", |(_, rest)| rest);
        }
    }

    fn take(&mut self, mark: &str) -> bool {
        self.skip();
        match self.left.strip_prefix(mark) {
            Some(rest) => {
                self.left = rest;
                true
            }
            None => false,
        }
    }

    fn expect(&mut self, mark: &str) -> Read<()> {
        if self.take(mark) {
            return Ok(());
        }
        Err(format!("`{mark}` expected before: {}", self.left.chars().take(20).collect::<String>()))
    }

    fn word(&mut self) -> Read<&'a str> {
        self.skip();
        let end = self.left.find(|c: char| !c.is_ascii_alphanumeric() && c != '_').unwrap_or(self.left.len());
        let (word, rest) = self.left.split_at(end);
        if word.is_empty() {
            return Err(format!("a name expected before: {}", rest.chars().take(20).collect::<String>()));
        }
        self.left = rest;
        Ok(word)
    }

    fn arguments(&mut self) -> Read<Vec<Tree>> {
        let mut terms = Vec::new();
        if self.left.starts_with('(') {
            self.expect("(")?;
            terms.push(self.term()?);
            while self.take(",") {
                terms.push(self.term()?);
            }
            self.expect(")")?;
        }
        Ok(terms)
    }

    fn variable(&mut self, word: &str) -> u32 {
        if word != "_" {
            return number(&mut self.variables, word) as u32;
        }
        self.variables.push(String::new());
        self.variables.len() as u32 - 1
    }

    fn term(&mut self) -> Read<Tree> {
        let word = self.word()?;
        if word.starts_with(|c: char| c.is_ascii_uppercase() || c == '_') {
            return Ok(Rc::new(Term::Variable(self.variable(word))));
        }
        if !self.left.starts_with('(') {
            return Ok(Rc::new(Term::Constant(number(&mut self.names.constants, word))));
        }
        let symbol = number(&mut self.names.compounds, word);
        Ok(Rc::new(Term::Compound(symbol, self.arguments()?)))
    }

    fn formula(&mut self) -> Read<Formula> {
        let word = self.word()?;
        let predicate = number(&mut self.names.predicates, word);
        Ok(Formula { predicate, arguments: self.arguments()? })
    }

    fn formulas(&mut self) -> Read<Goal> {
        let mut all = vec![self.formula()?];
        while self.take(",") {
            all.push(self.formula()?);
        }
        Ok(all)
    }

    fn ended(&mut self) -> bool {
        self.skip();
        self.left.is_empty()
    }

    /// The clauses up to the text's end or a `?-`.
    pub fn clauses(&mut self) -> Read<Vec<Clause>> {
        let mut all = Vec::new();
        while !self.ended() && !self.left.starts_with("?-") {
            self.variables.clear();
            let head = self.formula()?;
            let body = if self.take(":-") { self.formulas()? } else { Vec::new() };
            self.expect(".")?;
            all.push(Clause { head, body });
        }
        Ok(all)
    }

    /// `?- formula, formula.`, or the formulas alone; no text is the empty query.
    pub fn query(&mut self) -> Read<Goal> {
        self.variables.clear();
        let marked = self.take("?-");
        let goal = if self.ended() { Vec::new() } else { self.formulas()? };
        if marked {
            self.expect(".")?;
        }
        if self.ended() { Ok(goal) } else { Err(format!("unexpected: {}", self.left)) }
    }
}
