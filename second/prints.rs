// Books and goals with lists of names, to be printed (document 02, C-14): good lists, damaged ones, and areas about as long as the text.
use crate::build::{clause, constant, formula};
use crate::dice::Dice;
use crate::entries::run;
use crate::image;
use crate::item::{Area, Case, Entry, Item};
use crate::namelist::{COMPOUND, CONSTANT, Names, PREDICATE, Symbol, written};
use crate::print;
use crate::read::{self, Profile};
use crate::tree::{Clause, Formula, Term, Tree};
use std::collections::BTreeSet;

/// Entries in the order of a list, which damage may have spoilt.
type Entries = Vec<(Symbol, Vec<u8>)>;

fn in_tree(tree: &Tree, all: &mut BTreeSet<Symbol>) {
    match &**tree {
        Term::Variable(_) => {}
        Term::Constant(symbol) => drop(all.insert((CONSTANT, *symbol))),
        Term::Compound(symbol, inner) => {
            all.insert((COMPOUND, *symbol));
            inner.iter().for_each(|t| in_tree(t, all));
        }
    }
}

fn in_formulas<'a>(formulas: impl IntoIterator<Item = &'a Formula>, all: &mut BTreeSet<Symbol>) {
    for formula in formulas {
        all.insert((PREDICATE, formula.predicate));
        formula.arguments.iter().for_each(|t| in_tree(t, all));
    }
}

/// The symbols of a book and a goal, as far as they are good.
fn symbols(book: &[u8], goal: &[u8]) -> BTreeSet<Symbol> {
    let mut all = BTreeSet::new();
    if let Ok(clauses) = read::book(Profile::Plain, book) {
        in_formulas(clauses.iter().flat_map(|c| [&c.head].into_iter().chain(&c.body)), &mut all);
        in_formulas(&read::answer(&clauses, goal).unwrap_or_default(), &mut all);
    }
    all
}

/// A name for a number, no other number's, of at least so many bytes.
pub fn name(number: u32, length: usize) -> Vec<u8> {
    let digits = b"abcdefghijklmnopqrstuvwxyzABCDEFGHIJKLMNOPQRSTUVWXYZ_0123456789";
    let mut name = vec![digits[(number % 26) as usize]];
    let mut left = number / 26;
    while left > 0 {
        name.push(digits[(left % 63) as usize]);
        left /= 63;
    }
    let filled = name.len().max(length);
    name.resize(filled, b'_');
    name
}

/// Each symbol with a name; sorts share theirs, as the numbers are shared.
fn named(symbols: &BTreeSet<Symbol>, dice: &mut Dice) -> Entries {
    let (shift, most) = (dice.below(1000), [1, 5, 32][dice.below(3) as usize]);
    symbols.iter().map(|s| (*s, name(s.1 as u32 + shift, dice.from(1, most) as usize))).collect()
}

/// A name more, which nothing uses, mostly in its place.
fn unused(entries: &mut Entries, dice: &mut Dice) {
    let symbol = (dice.from(2, 4) as u8, dice.below(40) as u16);
    let at = entries.partition_point(|(s, _)| *s < symbol);
    let new = name(2000 + symbol.1 as u32, 1);
    if entries.get(at).is_none_or(|(s, _)| *s != symbol) || dice.once_in(4) {
        entries.insert(at, (symbol, new));
    }
}

/// A name that is none, or is one just so.
fn odd_name(dice: &mut Dice) -> Vec<u8> {
    let names: [&[u8]; 8] = [b"", b"A", b"_", b"7", b"a-b", b"aB_9", &[b'z'; 32], &[b'z'; 33]];
    names[dice.below(8) as usize].to_vec()
}

/// One thing wrong with the entries, or not quite.
fn spoilt(entries: &mut Entries, dice: &mut Dice) {
    if entries.is_empty() {
        return unused(entries, dice);
    }
    let [one, other] = [0, 1].map(|_| dice.below(entries.len() as u32) as usize);
    match dice.below(7) {
        0 => drop(entries.remove(one)),
        1 => entries.swap(one, other),
        2 => entries[one].1 = entries[other].1.clone(),
        3 => entries[one].1 = odd_name(dice),
        4 => entries[one].0.0 = dice.below(7) as u8,
        5 => entries[one].0 = entries[other].0,
        _ => unused(entries, dice),
    }
}

/// A list of names for a book and a goal: mostly good.
fn list(book: &[u8], goal: &[u8], dice: &mut Dice) -> Vec<u8> {
    let mut entries = named(&symbols(book, goal), dice);
    (0..dice.below(3)).for_each(|_| unused(&mut entries, dice));
    if dice.once_in(3) {
        spoilt(&mut entries, dice);
    }
    let bytes = written(entries.iter().map(|(s, n)| (s, n)));
    if dice.once_in(8) { damaged(bytes, dice) } else { bytes }
}

/// A byte wrong, too many, or all that would follow missing.
fn damaged(mut bytes: Vec<u8>, dice: &mut Dice) -> Vec<u8> {
    let place = dice.below(bytes.len() as u32 + 1) as usize;
    match dice.below(3) {
        0 => bytes.truncate(place),
        1 => bytes.insert(place, dice.below(128) as u8),
        _ => bytes.iter_mut().skip(place).take(1).for_each(|b| *b = b.wrapping_add(dice.from(1, 255) as u8)),
    }
    bytes
}

/// A list with one thing wrong, an entry or a byte, or not quite.
pub fn spoilt_list(list: &[u8], dice: &mut Dice) -> Vec<u8> {
    if dice.once_in(2) {
        return damaged(list.to_vec(), dice);
    }
    let mut entries = Names::read(list).map_or(Vec::new(), Names::entries);
    spoilt(&mut entries, dice);
    written(entries.iter().map(|(s, n)| (s, n)))
}

/// The longest area that is tried.
const LONGEST: usize = 65540;

/// An area as long as the text, or nearly.
fn area(exact: usize, dice: &mut Dice) -> Area {
    let length = match dice.below(6) {
        0 => exact.saturating_sub(1),
        1 => exact + dice.below(20) as usize,
        2 => dice.below(exact as u32 + 1) as usize,
        _ => exact,
    };
    Area { length: length.min(LONGEST), ..Area::usual(dice) }
}

pub fn book_item(book: Vec<u8>, list: Vec<u8>, dice: &mut Dice) -> Item {
    let area = area(print::book_text(&book, &list).map_or(100, |text| text.len()), dice);
    Item { entry: Entry::PrintBook, case: Case { book, query: list, number: 0, area, answer: Area::usual(dice) } }
}

/// A goal or an answer. Its length stands in the place of a number, and the list behind it.
pub fn goal_item(entry: Entry, book: Vec<u8>, goal: &[u8], list: &[u8], dice: &mut Dice) -> Item {
    let area = area(print::answer_text(&book, goal, list).map_or(100, |text| text.len()), dice);
    let case = Case { book, query: [goal, list].concat(), number: goal.len() as u32, area, answer: Area::usual(dice) };
    Item { entry, case }
}

/// The query of a case, or the goal or the answer that a run leaves, mostly at the entry that it is for.
fn goal(case: &Case, dice: &mut Dice) -> (Entry, Vec<u8>) {
    let (mut area, mut answer) = ([0; 16387], [0; 16387]);
    let a = run(&case.book, &case.query, dice.below(30), &mut area, &mut answer);
    let (entry, image) = match dice.below(3) {
        0 => (Entry::PrintGoal, &case.query[..]),
        1 => (Entry::PrintGoal, &area[..a.bytes as usize]),
        _ => (Entry::PrintAnswer, &answer[..a.answer as usize]),
    };
    (if dice.once_in(8) { [Entry::PrintGoal, Entry::PrintAnswer][dice.below(2) as usize] } else { entry }, image.to_vec())
}

/// A case's book, or a goal of it, printed.
pub fn made(case: Case, dice: &mut Dice) -> Item {
    if dice.once_in(2) {
        let list = list(&case.book, &[], dice);
        return book_item(case.book, list, dice);
    }
    let (entry, goal) = goal(&case, dice);
    let list = list(&case.book, &goal, dice);
    goal_item(entry, case.book, &goal, &list, dice)
}

/// Formulas that make so many bytes of text, each with two bytes behind it: long ones, and then predicates whose names fill the rest; and the list of names.
fn filling(bytes: usize) -> (Vec<Formula>, Vec<u8>) {
    let (long, line) = (formula(0, vec![constant(0); 7]), 32 + 7 * 33 + 3);
    let lines = bytes.saturating_sub(40) / line;
    let mut formulas = vec![long; lines];
    let mut entries: Entries = vec![((CONSTANT, 0), name(0, 32)), ((PREDICATE, 0), name(0, 32))];
    let mut left = bytes - lines * line;
    while left > 0 {
        let this = if left > 37 { 34 } else { left.min(if left > 34 { 17 } else { 34 }) };
        let number = entries.len() as u16;
        formulas.push(formula(number as u32, vec![]));
        entries.push(((PREDICATE, number), name(number as u32, this - 2)));
        left -= this;
    }
    (formulas, written(entries.iter().map(|(s, n)| (s, n))))
}

/// A book and a goal that print as so many bytes.
pub fn long(bytes: usize, dice: &mut Dice) -> [Item; 2] {
    let (formulas, list) = filling(bytes);
    let clauses: Vec<Clause> = formulas.into_iter().map(|f| clause(f, vec![])).collect();
    let (goal, names) = filling(bytes + 2);
    [book_item(image::of_book(&clauses), list, dice), goal_item(Entry::PrintGoal, vec![7], &image::of(&goal), &names, dice)]
}
