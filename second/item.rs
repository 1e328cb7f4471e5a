// The items of a stream, as the program `try_entries` reads them.
use crate::dice::Dice;

/// What an entry with areas is called with.
#[derive(Clone)]
pub struct Case {
    pub book: Vec<u8>,
    pub query: Vec<u8>,
    /// A run's budget, or the clause number of an apply.
    pub number: u32,
    pub area: Area,
    /// A run's answer area.
    pub answer: Area,
}

impl Case {
    /// A goal or a text, and the list of names behind it.
    pub fn with_list(&self) -> (&[u8], &[u8]) {
        self.query.split_at(self.query.len().min(self.number as usize))
    }
}

/// An area's length and what it holds before the call: its first byte, and what each byte has more than the one before it.
#[derive(Clone, Copy)]
pub struct Area {
    pub length: usize,
    pub first: u8,
    pub more: u8,
}

impl Area {
    /// The shortest that is long enough, with any bytes.
    pub fn usual(dice: &mut Dice) -> Area {
        Area { length: 16387, first: dice.below(256) as u8, more: dice.below(256) as u8 }
    }

    fn read(bytes: &[u8]) -> Area {
        Area { length: number(&bytes[..4]), first: bytes[4], more: bytes[5] }
    }

    fn written(&self) -> [u8; 6] {
        let [a, b, c, d] = four(self.length);
        [a, b, c, d, self.first, self.more]
    }

    pub fn bytes(&self) -> Vec<u8> {
        (0..self.length).map(|i| self.first.wrapping_add(self.more.wrapping_mul(i as u8))).collect()
    }
}

#[derive(Clone, Copy, PartialEq, Debug)]
pub enum Entry {
    CheckBook = 1,
    CheckQuery,
    Step,
    Run,
    RunForC,
    Pick,
    Apply,
    PickForC,
    ApplyForC,
    CheckFlatBook,
    CheckFlatQuery,
    FlatStep,
    FlatRun,
    FlatBookForC,
    FlatQueryForC,
    FlatStepForC,
    FlatRunForC,
    PrintBook,
    PrintGoal,
    PrintAnswer,
    ReadText,
    ReadQuery,
}

use Entry::*;
pub const PLAIN: [Entry; 9] = [CheckBook, CheckQuery, Step, Run, RunForC, Pick, Apply, PickForC, ApplyForC];
pub const FLAT: [Entry; 8] =
    [CheckFlatBook, CheckFlatQuery, FlatStep, FlatRun, FlatBookForC, FlatQueryForC, FlatStepForC, FlatRunForC];
pub const TEXTS: [Entry; 5] = [PrintBook, PrintGoal, PrintAnswer, ReadText, ReadQuery];

pub fn entries() -> impl Iterator<Item = Entry> {
    PLAIN.into_iter().chain(FLAT).chain(TEXTS)
}

impl Entry {
    /// How many areas it is lent: a run has an answer area behind its goal area.
    pub fn areas(self) -> usize {
        match self {
            Run | RunForC | FlatRun | FlatRunForC | ReadText | ReadQuery => 2,
            Step | Apply | ApplyForC | FlatStep | FlatStepForC | PrintBook | PrintGoal | PrintAnswer => 1,
            _ => 0,
        }
    }
}

/// A check of a book has no use for the query, nor for number and areas; that of a query and a pick have none for number and areas; the others likewise.
/// Where a book is printed, its list of names stands in the query's place; where a goal or an answer is, the goal
/// and then the list, and the number is the goal's length. A text to be read as rules stands in the book's place, and the areas are for the book and for its names.
/// A text to be read as a query stands where a goal to be printed does, and the areas are for its image and for the names.
pub struct Item {
    pub entry: Entry,
    pub case: Case,
}

/// The longest rest of an item that `try_entries` has room for.
const LONGEST: usize = 98304;

fn four(number: usize) -> [u8; 4] {
    (number as u32).to_be_bytes()
}

fn number(bytes: &[u8]) -> usize {
    bytes.iter().fold(0, |n, b| n * 256 + *b as usize)
}

impl Item {
    pub fn has_room(&self) -> bool {
        self.bytes().len() - 5 <= LONGEST
    }

    pub fn bytes(&self) -> Vec<u8> {
        let Case { book, query, number, area, answer } = &self.case;
        let rest = match self.entry {
            Entry::CheckBook => book.clone(),
            _ => [&number.to_be_bytes()[..], &area.written(), &answer.written(), &four(book.len()), book, query].concat(),
        };
        [&[self.entry as u8][..], &four(rest.len()), &rest].concat()
    }

    /// An item from the front of a stream, and the stream after it.
    pub fn read(stream: &[u8]) -> Option<(Item, &[u8])> {
        let entry = entries().find(|e| *e as u8 == stream[0])?;
        let length = number(stream.get(1..5)?);
        let (rest, after) = (stream.get(5..5 + length)?, &stream[5 + length..]);
        let none = Area { length: 0, first: 0, more: 0 };
        let mut case = Case { book: Vec::new(), query: Vec::new(), number: 0, area: none, answer: none };
        match entry {
            Entry::CheckBook => case.book = rest.to_vec(),
            _ => {
                let book = number(rest.get(16..20)?);
                case.number = number(&rest[..4]) as u32;
                (case.area, case.answer) = (Area::read(&rest[4..10]), Area::read(&rest[10..16]));
                case.book = rest.get(20..20 + book)?.to_vec();
                case.query = rest[20 + book..].to_vec();
            }
        }
        Some((Item { entry, case }, after))
    }
}
