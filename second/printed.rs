// Books and goals with their names and what is printed of them, worked out by hand, from lists/printed.
use crate::dice::Dice;
use crate::item::{Area, Case, Entry, Item};
use crate::namelist::{COMPOUND, CONSTANT, PREDICATE, written};
use crate::print;
use crate::read::Refusal;
use crate::table;

const PRINTED: &str = include_str!("lists/printed");

struct Row {
    book: Vec<u8>,
    goal: Option<Vec<u8>>,
    list: Vec<u8>,
    result: &'static str,
}

/// An entry of the list, or bytes.
fn word(word: &str) -> Vec<u8> {
    if let Some(hex) = word.strip_prefix('x') {
        return (0..hex.len()).step_by(2).map(|at| u8::from_str_radix(&hex[at..at + 2], 16).expect("two digits")).collect();
    }
    let (symbol, name) = word.split_once('=').expect("a symbol and its name");
    let kind = match &symbol[..1] {
        "c" => CONSTANT,
        "f" => COMPOUND,
        _ => PREDICATE,
    };
    written([(&(kind, symbol[1..].parse().expect("a number")), &name.as_bytes().to_vec())])
}

/// The list that is written as words.
pub fn entries(words: &str) -> Vec<u8> {
    words.split_whitespace().flat_map(word).collect()
}

fn row(line: &'static str) -> Row {
    let parts: Vec<&str> = line.split('|').map(str::trim).collect();
    let (rules, query) = parts[0].split_once("?-").map_or((parts[0], None), |(rules, query)| (rules, Some(query)));
    let (book, goal) = table::texts(rules, query.unwrap_or(""));
    Row { book, goal: query.map(|_| goal), list: entries(parts[1]), result: parts[2] }
}

fn rows() -> impl Iterator<Item = Row> {
    PRINTED.lines().filter(|line| !line.starts_with('#')).map(row)
}

fn text(row: &Row) -> Result<Vec<u8>, Refusal> {
    match &row.goal {
        Some(goal) => print::goal_text(&row.book, goal, &row.list),
        None => print::book_text(&row.book, &row.list),
    }
}

pub fn all_wrong() -> Vec<String> {
    let said = |row: &Row| match text(row) {
        Ok(text) => String::from_utf8_lossy(&text).replace('\n', "$"),
        Err(Refusal { code, place }) => format!("{code} {place}"),
    };
    let wrong = |row: Row| (said(&row) != row.result).then(|| format!("printed: {}, and not {}", said(&row), row.result));
    rows().filter_map(wrong).collect()
}

fn item(row: &Row, length: usize, dice: &mut Dice) -> Item {
    let area = Area { length, ..Area::usual(dice) };
    let (entry, query) = match &row.goal {
        Some(goal) => (Entry::PrintGoal, [&goal[..], &row.list].concat()),
        None => (Entry::PrintBook, row.list.clone()),
    };
    let number = row.goal.as_ref().map_or(0, Vec::len) as u32;
    Item { entry, case: Case { book: row.book.clone(), query, number, area, answer: Area { length: 0, ..area } } }
}

/// Each row with an area as long as its text, one byte shorter, and one byte longer.
pub fn items(dice: &mut Dice) -> Vec<Item> {
    let mut items = Vec::new();
    for row in rows() {
        let exact = text(&row).map_or(20, |text| text.len());
        items.extend([exact, exact.saturating_sub(1), exact + 1].map(|length| item(&row, length, dice)));
    }
    items
}
