// What is printed is read again, and what is read is printed again (document 02, C-14): held to whatever a stream prints and reads.
use crate::namelist::Names;
use crate::print;
use crate::read::Refusal;
use crate::scan;
use crate::text::{self, Texts};

type Printed = Result<Vec<u8>, Refusal>;
type Read = Result<Texts, scan::Refusal>;

/// What was said, if it comes back the same.
fn held<T, R>(said: Result<T, R>, comes_back: impl Fn(&T) -> bool, what: &str) -> Result<Result<T, R>, String> {
    match &said {
        Ok(good) if !comes_back(good) => Err(format!("{what} is not what it was")),
        _ => Ok(said),
    }
}

fn too_long(text: &[u8]) -> bool {
    text.len() > 65536
}

/// "The same book up to a one-to-one renumbering of symbols": it prints as the same text.
pub fn book_printed(text: Printed) -> Result<Printed, String> {
    let again = |text: &Vec<u8>| text::rules(text).ok().and_then(|read| print::book_text(&read.image, &read.names).ok());
    held(text, |text| too_long(text) || again(text).as_ref() == Some(text), "a printed book")
}

/// A query can be read by the list.
fn asks(list: &[u8]) -> bool {
    Names::read(list).is_some_and(|names| names.in_turn())
}

/// By the names that it was printed with, a goal has its own numbers.
pub fn goal_printed(book: &[u8], goal: &[u8], list: &[u8], text: Printed) -> Result<Printed, String> {
    let same = |read: Texts| read.image == goal && read.names == list;
    held(text, |text| too_long(text) || !asks(list) || text::query(text, book, list).is_ok_and(same), "a printed goal")
}

/// An answer is read as a query, with numbers by first appearance.
pub fn answer_printed(book: &[u8], list: &[u8], text: Printed) -> Result<Printed, String> {
    let same = |read: Texts| read.names == list;
    held(text, |text| too_long(text) || !asks(list) || text::query(text, book, list).is_ok_and(same), "a printed answer")
}

pub fn rules_read(read: Read) -> Result<Read, String> {
    let again = |read: &Texts| print::book_text(&read.image, &read.names);
    let same = |read: &Texts| again(read).is_ok_and(|text| too_long(&text) || text::rules(&text).as_ref() == Ok(read));
    held(read, same, "a book that was read")
}

/// By the names that it has, which are the list's and its own.
pub fn query_read(book: &[u8], read: Read) -> Result<Read, String> {
    let again = |read: &Texts| print::goal_text(book, &read.image, &read.names);
    let same = |read: &Texts| {
        again(read).is_ok_and(|text| too_long(&text) || text::query(&text, book, &read.names).as_ref() == Ok(read))
    };
    held(read, same, "a query that was read")
}
