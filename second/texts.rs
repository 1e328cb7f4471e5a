// Rules as text at random (document 02, C-13): token by token, with blanks and comments between, mostly good; and the same with damage.
use crate::dice::Dice;
use crate::item::{Area, Item};
use crate::prints::name;
use crate::prints::spoilt_list;
use crate::readings::{item, query_item};
use crate::text::{self, Texts};

struct Pen<'a> {
    out: Vec<u8>,
    dice: &'a mut Dice,
    /// Of so many places where a blank may stand, one has some.
    blanks: u32,
    /// How many names there are, and how long the longest is.
    names: u32,
    longest: u32,
}

const BLANKS: [&[u8]; 8] = [b" ", b" ", b"\n", b"\t", b"\r\n", b"  \n\t ", b"% a (comment). :-\n", b"%\r \xff%\n\n"];
const VARIABLES: [&[u8]; 10] =
    [b"X", b"Y", b"_", b"_", b"Z1", b"_a", b"__", b"X_y9", b"_0", b"AVariableOfMoreThanThirtyTwoBytes_1"];

impl Pen<'_> {
    fn one_of(&mut self, list: &[&[u8]]) {
        let chosen = self.dice.below(list.len() as u32) as usize;
        self.out.extend(list[chosen]);
    }

    fn gap(&mut self) {
        while self.dice.once_in(self.blanks) {
            self.one_of(&BLANKS);
        }
    }

    fn token(&mut self, token: &[u8]) {
        self.gap();
        self.out.extend(token);
    }

    /// A name, behind blanks, and its number.
    fn name(&mut self) -> u32 {
        let number = self.dice.below(self.names);
        let length = if self.dice.once_in(200) { 33 } else { 1 + number * 7 % self.longest };
        self.token(&name(number, length as usize));
        number
    }

    /// So many terms with commas between, in brackets; nothing for none.
    fn arguments(&mut self, how_many: u32, room: u32) {
        for n in 0..how_many {
            if n == 0 {
                self.out.push(b'(');
            } else {
                self.token(b",");
            }
            self.term(room);
        }
        if how_many > 0 {
            self.token(b")");
        }
    }

    fn term(&mut self, room: u32) {
        match self.dice.below(5) {
            0 | 1 => {
                self.gap();
                self.one_of(&VARIABLES);
            }
            2 if room > 0 => {
                self.name();
                let arity = if self.dice.once_in(40) { self.dice.from(7, 9) } else { self.dice.from(1, 3) };
                self.arguments(arity, room - 1);
            }
            _ => drop(self.name()),
        }
    }

    /// A predicate has one arity, nearly always.
    fn formula(&mut self) {
        let number = self.name();
        let arity = if self.dice.once_in(150) { self.dice.below(10) } else { number * 5 % 4 };
        self.arguments(arity, 3);
    }

    fn formulas(&mut self, how_many: u32) {
        for n in 0..how_many {
            if n > 0 {
                self.token(b",");
            }
            self.formula();
        }
    }

    fn clause(&mut self) {
        self.formula();
        if !self.dice.once_in(3) {
            self.token(b":-");
            let body = if self.dice.once_in(30) { self.dice.from(14, 17) } else { self.dice.from(1, 4) };
            self.formulas(body);
        }
        self.token(b".");
        self.one_of(&BLANKS);
    }
}

fn pen(dice: &mut Dice) -> Pen<'_> {
    let (blanks, names, longest) = (dice.from(2, 12), dice.from(1, 12), [3, 8, 32][dice.below(3) as usize]);
    Pen { out: Vec::new(), dice, blanks, names, longest }
}

/// Rules, and a query that has about the same names.
fn rules_and_query(dice: &mut Dice) -> (Vec<u8>, Vec<u8>) {
    let (clauses, formulas, stops) = (dice.below(7), dice.below(6), dice.once_in(3));
    let mut pen = pen(dice);
    (0..clauses).for_each(|_| pen.clause());
    pen.gap();
    let rules = std::mem::take(&mut pen.out);
    pen.formulas(formulas);
    if stops {
        pen.token(b".");
        pen.one_of(&BLANKS);
    }
    pen.gap();
    (rules, pen.out)
}

/// Bytes that mean something in a text, and some that do not.
pub const SIGNS: &[u8] = b"a_X9(),.:-% \n\r\t;\0\xff";

fn damage(text: &mut Vec<u8>, dice: &mut Dice) {
    let place = dice.below(text.len() as u32 + 1) as usize;
    let sign = SIGNS[dice.below(SIGNS.len() as u32) as usize];
    match dice.below(4) {
        0 => text.truncate(place),
        1 => text.insert(place, sign),
        _ if place == text.len() => text.push(sign),
        2 => drop(text.remove(place)),
        _ => text[place] = sign,
    }
}

/// An area as long as what is read, or a byte shorter, or longer.
fn area(exact: usize, dice: &mut Dice) -> Area {
    let length = match dice.below(12) {
        0 => exact.saturating_sub(1),
        1 => exact + dice.below(10) as usize,
        _ => exact,
    };
    Area { length, ..Area::usual(dice) }
}

pub fn rules_item(text: &[u8], dice: &mut Dice) -> Item {
    let lengths = text::rules(text).map_or([30, 30], |read| [read.image.len(), read.names.len()]);
    item(text, lengths.map(|length| area(length, dice)))
}

/// Rules, damaged now and then.
pub fn made(dice: &mut Dice) -> Item {
    let (mut text, _) = rules_and_query(dice);
    (0..dice.below(3)).for_each(|_| damage(&mut text, dice));
    rules_item(&text, dice)
}

pub fn asked_item(text: &[u8], book: &[u8], list: &[u8], dice: &mut Dice) -> Item {
    let lengths = text::query(text, book, list).map_or([30, 30], |read| [read.image.len(), read.names.len()]);
    query_item(text, book, list, lengths.map(|length| area(length, dice)))
}

/// A query to rules that are read, or to the empty book; its text, the book or the list damaged now and then.
pub fn asked(dice: &mut Dice) -> Item {
    let (rules, mut query) = rules_and_query(dice);
    let read = text::rules(&rules).unwrap_or(Texts { image: vec![7], names: Vec::new() });
    let Texts { image: mut book, names: mut list } = read;
    match dice.below(12) {
        0..4 => (0..dice.from(1, 2)).for_each(|_| damage(&mut query, dice)),
        4..6 => list = spoilt_list(&list, dice),
        6 => drop(book.pop()),
        _ => {}
    }
    asked_item(&query, &book, &list, dice)
}
