// Rules and queries as text with what is read of them, worked out by hand, from lists/texts and lists/queries.
use crate::dice::Dice;
use crate::item::{Area, Case, Entry, Item};
use crate::namelist::{CONSTANT, written};
use crate::print;
use crate::printed::entries;
use crate::prints::name;
use crate::scan::Refusal;
use crate::table;
use crate::text::{self, Texts};

const TEXTS: &str = include_str!("lists/texts");
const QUERIES: &str = include_str!("lists/queries");

/// The text that stands in a list, with its signs for other bytes and its repetitions.
pub fn spelt(text: &str) -> Vec<u8> {
    let (mut out, mut left) = (Vec::new(), text);
    while let Some(sign) = left.chars().next() {
        let (bytes, width) = match sign {
            '$' => (vec![b'\n'], 1),
            '\\' if left[1..].starts_with('x') => (vec![u8::from_str_radix(&left[2..4], 16).expect("two digits")], 4),
            '\\' if left[1..].starts_with(['s', 't', 'r']) => (vec![b" \t\r"["str".find(&left[1..2]).expect("a sign")]], 2),
            '{' => {
                let (inside, _) = left[1..].split_once('}').expect("a closing bracket");
                let (times, part) = inside.split_once(':').expect("how often, and what");
                (spelt(part).repeat(times.parse().expect("a number")), inside.len() + 2)
            }
            other => (other.to_string().into_bytes(), other.len_utf8()),
        };
        out.extend(bytes);
        left = &left[width..];
    }
    out
}

/// A text, to a book with its names if it is a query; what comes back, or the code and the place.
struct Row {
    text: Vec<u8>,
    to: Option<(Vec<u8>, Vec<u8>)>,
    names: Vec<u8>,
    result: Vec<u8>,
}

fn columns(list: &'static str) -> impl Iterator<Item = Vec<&'static str>> {
    list.lines().filter(|line| !line.starts_with('#')).map(|line| line.split('|').map(str::trim).collect())
}

fn rows() -> Vec<Row> {
    let rules = |c: Vec<&str>| Row { text: spelt(c[0]), to: None, names: entries(c[1]), result: spelt(c[2]) };
    let query = |c: Vec<&str>| {
        let to = Some((table::texts(c[0], "").0, entries(c[1])));
        Row { text: spelt(c[2]), to, names: entries(c[3]), result: spelt(c[4]) }
    };
    columns(TEXTS).map(rules).chain(columns(QUERIES).map(query)).collect()
}

fn read(row: &Row) -> Result<Texts, Refusal> {
    match &row.to {
        Some((book, list)) => text::query(&row.text, book, list),
        None => text::rules(&row.text),
    }
}

/// What was read, printed again.
fn said(row: &Row) -> (Vec<u8>, Vec<u8>) {
    match read(row) {
        Ok(Texts { image, names }) => {
            let printed = match &row.to {
                Some((book, _)) => print::goal_text(book, &image, &names),
                None => print::book_text(&image, &names),
            };
            (printed.unwrap_or_else(|refusal| format!("printed {}", refusal.code).into_bytes()), names)
        }
        Err(Refusal(code, place)) => (format!("{code} {place}").into_bytes(), Vec::new()),
    }
}

pub fn all_wrong() -> Vec<String> {
    let wrong = |row: Row| {
        let text = |bytes: &[u8]| String::from_utf8_lossy(bytes).into_owned();
        let (result, names) = said(&row);
        let same = result == row.result && names == row.names;
        (!same).then(|| format!("{}: {}, and not {}", text(&row.text), text(&result), text(&row.result)))
    };
    rows().into_iter().filter_map(wrong).chain(last_number()).collect()
}

/// With 61,439 constants in a list a query's first new one has the number 61,439, and with one more there is no list.
fn last_number() -> Option<String> {
    let list = |count: u32| {
        let entries: Vec<_> = (0..count).map(|n| ((CONSTANT, n as u16), name(n, 1))).collect();
        written(entries.iter().map(|(symbol, name)| (symbol, name)))
    };
    let taken = text::query(b"e(new_one)", &[7], &list(61439)).is_ok_and(|read| read.image.ends_with(&[2, 0xef, 0xff]));
    let refused = text::query(b"e(new_one)", &[7], &list(61440)) == Err(Refusal(45, 0));
    (!taken || !refused).then(|| "the last numbers of a list".to_string())
}

/// A text for the entry that reads rules.
pub fn item(text: &[u8], [area, answer]: [Area; 2]) -> Item {
    Item { entry: Entry::ReadText, case: Case { book: text.to_vec(), query: Vec::new(), number: 0, area, answer } }
}

/// A text for the entry that reads a query: its length stands in the place of a number, and the list behind it.
pub fn query_item(text: &[u8], book: &[u8], list: &[u8], [area, answer]: [Area; 2]) -> Item {
    let case = Case { book: book.to_vec(), query: [text, list].concat(), number: text.len() as u32, area, answer };
    Item { entry: Entry::ReadQuery, case }
}

/// Each row with areas as long as what is read; and with one of them a byte shorter.
pub fn items(dice: &mut Dice) -> Vec<Item> {
    let mut items = Vec::new();
    for row in rows().iter() {
        let (image, names) = read(row).map_or((20, 20), |read| (read.image.len(), read.names.len()));
        for lengths in [[image, names], [image - 1, names], [image, names.saturating_sub(1)]] {
            let areas = lengths.map(|length| Area { length, ..Area::usual(dice) });
            items.push(match &row.to {
                Some((book, list)) => query_item(&row.text, book, list, areas),
                None => item(&row.text, areas),
            });
        }
    }
    items
}
