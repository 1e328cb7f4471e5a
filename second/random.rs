// Books and queries at random: mostly good, record by record.
use crate::dice::Dice;
use crate::pen;

/// What random clauses are made of: how many predicates, with which arities; how many constants and compound symbols, with which arities;
/// of sixteen terms how many are variables, and how many are not compound; how many compound terms a formula has at most, how long a body
/// is, and of eight clauses how many are facts; whether some formulas have another arity than their predicate's.
pub struct Shape {
    predicates: u32,
    arity: u32,
    apart: u32,
    symbols: u32,
    twist: u32,
    variables: u32,
    leaves: u32,
    room: u32,
    bodies: u32,
    facts: u32,
    odd: bool,
}

fn mixed(dice: &mut Dice) -> Shape {
    let variables = dice.from(5, 11);
    Shape {
        predicates: dice.from(1, 4),
        arity: dice.below(4),
        apart: dice.below(4),
        symbols: dice.from(1, 3),
        twist: dice.below(3),
        variables,
        leaves: variables + dice.below(6),
        room: dice.below(4),
        bodies: dice.from(1, 3),
        facts: dice.below(5),
        odd: dice.once_in(10),
    }
}

/// Formulas without arguments.
fn bare(dice: &mut Dice) -> Shape {
    Shape { predicates: dice.from(3, 8), arity: 0, apart: 0, ..mixed(dice) }
}

/// One predicate with three arguments, larger terms of two arguments, many variables, few constants.
fn knotty(dice: &mut Dice) -> Shape {
    let variables = dice.from(6, 10);
    Shape {
        predicates: 1,
        arity: 3,
        apart: 0,
        symbols: 1 + dice.once_in(8) as u32,
        twist: 1,
        variables,
        leaves: variables + dice.once_in(3) as u32,
        room: dice.from(2, 10),
        bodies: dice.from(1, 2),
        facts: 2,
        odd: dice.once_in(10),
    }
}

impl Shape {
    /// Shape 0, 1 or 2, for a book and the query that goes with it.
    pub fn new(dice: &mut Dice, sort: u32) -> Shape {
        match sort {
            0 => mixed(dice),
            1 => bare(dice),
            _ => knotty(dice),
        }
    }

    fn arity_of(&self, predicate: u32) -> u32 {
        (self.arity + predicate * self.apart) % 4
    }
}

struct Pen<'a> {
    out: &'a mut Vec<u8>,
    shape: &'a Shape,
    dice: &'a mut Dice,
    /// The next unused variable of the clause or goal.
    next: u32,
    /// Compound terms still allowed in the formula.
    room: u32,
}

impl Pen<'_> {
    fn variable(&mut self) {
        let number = self.dice.below(if self.next < 40 { self.next + 1 } else { 40 });
        self.next = self.next.max(number + 1);
        pen::record(self.out, 1, number);
    }

    fn compound(&mut self) {
        let symbol = self.dice.below(self.shape.symbols);
        let odd = self.dice.once_in(64);
        let arity = 1 + if odd { self.dice.below(3) } else { (symbol + self.shape.twist) % 3 };
        self.room -= 1;
        pen::symbol(self.out, 3, symbol, arity);
        self.terms(arity);
    }

    fn terms(&mut self, n: u32) {
        for _ in 0..n {
            let sort = self.dice.below(16);
            if sort >= self.shape.variables && sort < self.shape.leaves {
                pen::record(self.out, 2, self.dice.below(self.shape.symbols));
            } else if sort >= self.shape.leaves && self.room > 0 {
                self.compound();
            } else {
                self.variable();
            }
        }
    }

    fn formula(&mut self, predicate: u32) {
        let odd = self.shape.odd && self.dice.once_in(16);
        let arity = if odd { self.dice.below(4) } else { self.shape.arity_of(predicate) };
        self.room = self.shape.room;
        pen::symbol(self.out, 4, predicate, arity);
        self.terms(arity);
    }

    fn formulas(&mut self, n: u32) {
        for _ in 0..n {
            let predicate = self.dice.below(self.shape.predicates);
            self.formula(predicate);
        }
    }

    fn clause(&mut self, predicate: u32) {
        let fact = self.dice.below(8) < self.shape.facts;
        let body = if fact { 0 } else { self.dice.from(1, self.shape.bodies) };
        self.next = 0;
        pen::clause(self.out, body);
        self.formula(predicate);
        self.formulas(body);
    }

    /// A clause whose head any formula of the predicate fits, so that paths go on.
    fn open_clause(&mut self, predicate: u32) {
        let arity = self.shape.arity_of(predicate);
        let body = self.dice.from(1, self.shape.bodies);
        self.next = arity;
        pen::clause(self.out, body);
        pen::symbol(self.out, 4, predicate, arity);
        (0..arity).for_each(|number| pen::record(self.out, 1, number));
        self.formulas(body);
    }
}

/// The predicates take turns, so that each has clauses if there are enough.
pub fn book(out: &mut Vec<u8>, shape: &Shape, dice: &mut Dice) {
    let clauses = dice.from(1, 8);
    let opened = !dice.once_in(4);
    let mut pen = Pen { out, shape, dice, next: 0, room: 0 };
    (0..clauses).for_each(|i| pen.clause(i % shape.predicates));
    if opened {
        (0..shape.predicates).for_each(|i| pen.open_clause(i));
    }
    out.push(7);
}

pub fn query(out: &mut Vec<u8>, shape: &Shape, dice: &mut Dice) {
    let formulas = dice.from(1, 4);
    pen::record(out, 6, formulas);
    Pen { out, shape, dice, next: 0, room: 0 }.formulas(formulas);
}

pub fn terms(out: &mut Vec<u8>, dice: &mut Dice, n: u32) {
    let shape = mixed(dice);
    Pen { out, shape: &shape, dice, next: 0, room: shape.room }.terms(n);
}

/// Bytes at random, most of them kinds.
pub fn noise(out: &mut Vec<u8>, dice: &mut Dice, n: u32) {
    for _ in 0..n {
        let most = if dice.once_in(4) { 256 } else { 9 };
        out.push(dice.below(most) as u8);
    }
}

/// One byte changed, added or taken out, or the bytes cut short.
pub fn damage(bytes: &mut Vec<u8>, dice: &mut Dice) {
    let place = dice.below(bytes.len() as u32 + 1) as usize;
    let most = if dice.once_in(4) { 256 } else { 9 };
    let byte = dice.below(most) as u8;
    match dice.below(8) {
        0 => bytes.truncate(place),
        1 => bytes.push(byte),
        2 => bytes.insert(place, byte),
        _ if place == bytes.len() => {}
        3 => {
            bytes.remove(place);
        }
        _ => bytes[place] = byte,
    }
}
