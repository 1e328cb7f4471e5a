// Streams of items: the documents' cases, the lists, inputs cut and changed at every byte, texts about as long as they may be, and then inputs at random.
use crate::arities;
use crate::chains;
use crate::circles;
use crate::deep;
use crate::dice::Dice;
use crate::entries::run;
use crate::flat;
use crate::growing;
use crate::item::{Area, Case, Entry, FLAT, Item, PLAIN};
use crate::limits;
use crate::list::{self, Line};
use crate::printed;
use crate::prints;
use crate::read::{self, Profile};
use crate::readings;
use crate::rooms;
use crate::stuck;
use crate::table;
use crate::texts;
use crate::unknown;
use crate::worked;
use std::collections::HashSet;

/// The clause numbers that are tried with a book: each from 0 to one past the book's, of a long book the first ones and the last; and the largest number.
fn clause_numbers(book: &[u8], long: usize) -> Vec<u32> {
    let count = read::book(Profile::Plain, book).map_or(0, |clauses| clauses.len() as u32);
    let tried = |n: &u32| book.len() < long || *n < 2 || *n + 2 > count;
    (0..=count).filter(tried).chain([u32::MAX]).collect()
}

fn applied(entry: Entry, case: &Case) -> Vec<Item> {
    let numbers = clause_numbers(&case.book, if entry == Entry::Apply { 5000 } else { 500 });
    numbers.into_iter().map(|number| Item { entry, case: Case { number, ..case.clone() } }).collect()
}

fn at_all_entries(cases: Vec<Case>) -> impl Iterator<Item = Item> {
    let at = |case: &Case, entry: Entry| match entry {
        Entry::Apply | Entry::ApplyForC => applied(entry, case),
        _ => vec![Item { entry, case: case.clone() }],
    };
    cases.into_iter().flat_map(move |case| PLAIN.map(|entry| at(&case, entry))).flatten()
}

/// The runs alone: the other entries carry no answer.
fn runs(cases: Vec<Case>) -> impl Iterator<Item = Item> {
    let both = |case: Case| [Entry::Run, Entry::RunForC].map(|entry| Item { entry, case: case.clone() });
    cases.into_iter().flat_map(both)
}

/// At the entries of the flat profile, and what is left of the case with fewer compound terms.
fn at_flat_entries(cases: Vec<Case>, dice: &mut Dice) -> Vec<Item> {
    let both = |case: Case| [flat::made(case.clone(), dice), case];
    let cases: Vec<Case> = cases.into_iter().flat_map(both).collect();
    cases.into_iter().flat_map(|case| FLAT.map(|entry| Item { entry, case: case.clone() })).collect()
}

/// Cut at every byte, with a byte more, and with each byte changed to the kinds and the limits.
pub fn at_every_byte(bytes: &[u8]) -> Vec<Vec<u8>> {
    let mut all: Vec<Vec<u8>> = (0..bytes.len()).map(|n| bytes[..n].to_vec()).collect();
    for place in 0..=bytes.len() {
        for byte in [0, 1, 2, 3, 4, 5, 6, 7, 8, 9, 17, 64, 255] {
            let mut other = bytes.to_vec();
            if place < bytes.len() {
                other[place] = byte
            } else {
                other.push(byte)
            }
            all.push(other);
        }
    }
    all
}

/// The same of a case's book and of its query, at the checks and as short runs.
fn damaged(case: &Case) -> Vec<Item> {
    let case = Case { number: 20, ..case.clone() };
    let books = at_every_byte(&case.book).into_iter().map(|book| (Entry::CheckBook, Case { book, ..case.clone() }));
    let queries = at_every_byte(&case.query).into_iter().map(|query| (Entry::CheckQuery, Case { query, ..case.clone() }));
    books.chain(queries).flat_map(|(check, case)| [check, Entry::Run].map(|entry| Item { entry, case: case.clone() })).collect()
}

/// The same at the checks of the flat profile, of a book and a query with a compound term.
fn damaged_flat(dice: &mut Dice) -> Vec<Item> {
    let (book, query) = table::texts("p(f(a,X),X) :- q(b). q(b).", "p(a,f(X,Y)), q(X)");
    let case = Case { book, query, number: 20, area: Area::usual(dice), answer: Area::usual(dice) };
    let flat = Case { book: table::texts("p(a,X) :- q(b). q(b).", "").0, ..case.clone() };
    let books = at_every_byte(&case.book).into_iter().map(|book| (Entry::CheckFlatBook, Case { book, ..case.clone() }));
    let queries = at_every_byte(&case.query).into_iter().map(|query| (Entry::CheckFlatQuery, Case { query, ..flat.clone() }));
    books.chain(queries).map(|(entry, case)| Item { entry, case }).collect()
}

/// A line by the weights.
fn weighted<'a>(lines: &'a [Line], dice: &mut Dice) -> &'a Line {
    let mut left = dice.below(lines.iter().map(Line::weight).sum());
    for line in lines {
        if left < line.weight() {
            return line;
        }
        left -= line.weight();
    }
    unreachable!("the weights are summed up")
}

fn other_length(area: Area, dice: &mut Dice) -> Area {
    Area { length: [0, 16386, 16388, 20000, 40960][dice.below(5) as usize], ..area }
}

fn random_case(lines: &[Line], dice: &mut Dice) -> Case {
    let mut case = match dice.below(64) {
        0..16 => deep::random(dice),
        16..26 => chains::random(dice),
        26..36 => circles::random(dice),
        36 => rooms::random(dice),
        37..43 => stuck::random(dice),
        43..49 => growing::random(dice),
        _ => weighted(lines, dice).case(0, dice),
    };
    if dice.once_in(12) {
        case = unknown::made(case, dice);
    }
    if dice.once_in(16) {
        case = arities::made(case, dice);
    }
    if dice.once_in(20) {
        case.area = other_length(case.area, dice);
    }
    if dice.once_in(20) {
        case.answer = other_length(case.answer, dice);
    }
    case
}

/// Runs with budgets around the closing step.
fn around_the_end(case: &Case) -> Vec<Item> {
    let t = run(&case.book, &case.query, case.number.min(300), &mut [0; 16387], &mut [0; 16387]).steps;
    let budgets = [t.saturating_sub(1), t, t + 1];
    budgets.map(|number| Item { entry: Entry::Run, case: Case { number, ..case.clone() } }).into()
}

/// A step, what the pick says before it, and the apply of each clause.
fn in_two(case: &Case, dice: &mut Dice) -> Vec<Item> {
    let [pick, apply] = if dice.once_in(4) { [Entry::PickForC, Entry::ApplyForC] } else { [Entry::Pick, Entry::Apply] };
    let mut items: Vec<Item> = [Entry::Step, pick].map(|entry| Item { entry, case: case.clone() }).into();
    items.extend(applied(apply, case));
    items
}

fn random_entry(dice: &mut Dice) -> Entry {
    match dice.below(18) {
        0 => Entry::CheckBook,
        1 => Entry::CheckQuery,
        2..7 => Entry::Step,
        7..14 => Entry::Run,
        14..16 => Entry::RunForC,
        16 => Entry::Pick,
        _ => Entry::PickForC,
    }
}

/// The case at one entry, or at several.
fn random_items(lines: &[Line], dice: &mut Dice) -> Vec<Item> {
    let case = random_case(lines, dice);
    match dice.below(18) {
        0..2 => around_the_end(&case),
        2 => in_two(&case, dice),
        3..5 => vec![Item { entry: FLAT[dice.below(8) as usize], case: flat::made(case, dice) }],
        5..7 => vec![prints::made(case, dice)],
        7..9 => vec![if dice.once_in(2) { texts::made(dice) } else { texts::asked(dice) }],
        _ => vec![Item { entry: random_entry(dice), case }],
    }
}

/// So many items, from a seed: first those that are always there.
pub fn long(seed: u64, count: usize) -> Vec<Item> {
    let mut dice = Dice::new(seed);
    let documents = table::cases(&mut dice);
    let mut items: Vec<Item> =
        documents.iter().filter(|case| case.query.len() > 9 && case.query.len() < 20).flat_map(damaged).collect();
    items.extend(at_all_entries(documents));
    items.extend(at_all_entries(worked::cases(&mut dice)));
    items.extend(at_all_entries(list::cases(list::SMALL, &mut dice)));
    items.extend(at_all_entries(list::cases(list::SIZES, &mut dice)));
    items.extend(runs(list::cases(list::ANSWERS, &mut dice)));
    items.extend(damaged_flat(&mut dice));
    let small = list::cases(list::SMALL, &mut dice);
    items.extend(at_flat_entries(small, &mut dice));
    items.extend(printed::items(&mut dice));
    items.extend(readings::items(&mut dice));
    items.extend(limits::items(&mut dice));
    items.extend((65530..65543).flat_map(|bytes| prints::long(bytes, &mut dice)));
    let lines = list::lines(list::RANDOM);
    while items.len() < count {
        items.extend(random_items(&lines, &mut dice).into_iter().filter(Item::has_room));
    }
    items.truncate(count);
    items
}

/// A run for C is tried where a run is.
fn for_c(item: Item) -> Option<Item> {
    match item.entry {
        Entry::Run => Some(Item { entry: Entry::RunForC, ..item }),
        Entry::RunForC | Entry::PickForC | Entry::ApplyForC => Some(item),
        _ => None,
    }
}

/// The calls for C of the stored stream, and then of items at random, from a seed: so many, and none of them twice.
pub fn calls(seed: u64, count: usize) -> Vec<Item> {
    let (mut dice, lines) = (Dice::new(seed), list::lines(list::RANDOM));
    let mut before = HashSet::new();
    let at_random = std::iter::from_fn(|| Some(random_items(&lines, &mut dice))).flatten();
    let items = short().into_iter().chain(at_random.filter(Item::has_room));
    items.filter_map(for_c).filter(|item| before.insert(item.bytes())).take(count).collect()
}

/// The documents' cases, the short list, short ones of the answers, and short items at random.
pub fn short() -> Vec<Item> {
    let mut dice = Dice::new(1);
    let mut items: Vec<Item> = at_all_entries(table::cases(&mut dice)).collect();
    items.extend(at_all_entries(worked::cases(&mut dice)));
    items.extend(at_all_entries(list::cases(list::SMALL, &mut dice)));
    let is_short = |item: &Item| item.case.book.len() + item.case.query.len() < 400;
    items.extend(runs(list::cases(list::ANSWERS, &mut dice)).filter(is_short));
    let flat = [table::cases(&mut dice), worked::cases(&mut dice)].concat();
    items.extend(at_flat_entries(flat, &mut dice).into_iter().filter(is_short));
    items.extend(printed::items(&mut dice));
    items.extend(readings::items(&mut dice).into_iter().filter(is_short));
    let lines = list::lines(list::RANDOM);
    let count = items.len() + 300;
    while items.len() < count {
        items.extend(random_items(&lines, &mut dice).into_iter().filter(is_short));
    }
    items
}
