// Small books with results worked out by hand, from lists/worked.
use crate::answers;
use crate::dice::Dice;
use crate::entries::run;
use crate::item::{Area, Case, Entry, Item, entries};
use crate::table;

const WORKED: &str = include_str!("lists/worked");

/// A line's book and query, its case, and what stands behind its bars.
struct Row {
    texts: (&'static str, &'static str),
    case: Case,
    results: Vec<&'static str>,
}

fn rows(dice: &mut Dice) -> Vec<Row> {
    let row = |line: &'static str| {
        let mut parts = line.split('|').map(str::trim);
        let texts = parts.next().and_then(|inputs| inputs.split_once("?-")).expect("a book and a query");
        let (book, query) = table::texts(texts.0, texts.1);
        let case = Case { book, query, number: 10000, area: Area::usual(dice), answer: Area::usual(dice) };
        Row { texts, case, results: parts.collect() }
    };
    WORKED.lines().filter(|line| !line.starts_with('#')).map(row).collect()
}

/// The entry of that name.
fn entry(name: &str) -> Entry {
    entries().find(|entry| format!("{entry:?}").eq_ignore_ascii_case(name)).expect("an entry's name")
}

/// Whether a run of the case leaves the goal and the answer that a text says.
fn leaves(row: &Row, case: &Case, text: &str) -> bool {
    let (mut area, mut space) = ([0; 16387], [0; 16387]);
    let a = run(&case.book, &case.query, case.number, &mut area, &mut space);
    let (goal, answer) = text.split_once("with").expect("a goal and an answer");
    table::left(row.texts, goal, answer) == [&area[..a.bytes as usize], &space[..a.answer as usize]]
}

/// What is wrong with a result, if anything is.
fn wrong(row: &Row, result: &str) -> Option<String> {
    let (call, said) = result.split_once(": ").expect("an entry and its answer");
    let (says, text) = said.split_once(" left ").map_or((said, None), |(says, text)| (says, Some(text)));
    let (name, number) = call.split_once(' ').unwrap_or((call, "0"));
    let case = Case { number: number.parse().expect("a number"), ..row.case.clone() };
    let item = Item { entry: entry(name), case };
    let line = answers::line(&item).unwrap_or_else(|said| said);
    let numbers = line.rsplitn(item.entry.areas() + 1, ' ').last().unwrap_or("");
    let same = numbers == says && text.is_none_or(|text| leaves(row, &item.case, text));
    (!same).then(|| format!("{result}, and not {numbers}, by {} and {}", row.texts.0, row.texts.1))
}

pub fn all_wrong() -> Vec<String> {
    let wrong_of = |row: Row| row.results.iter().filter_map(|result| wrong(&row, result)).collect::<Vec<_>>();
    rows(&mut Dice::new(1)).into_iter().flat_map(wrong_of).collect()
}

pub fn cases(dice: &mut Dice) -> Vec<Case> {
    rows(dice).into_iter().map(|row| row.case).collect()
}
