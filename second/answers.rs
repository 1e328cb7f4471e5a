// What must come out: a line for each item of a stream.
use crate::again;
use crate::entries::{Answer, apply, pick, run_in, step};
use crate::flat;
use crate::item::{Case, Entry, Item};
use crate::period;
use crate::print;
use crate::read::{self, Profile, Refusal};
use crate::scan;
use crate::text::{self, Texts};

/// The sum that `try_entries` makes of bytes.
pub fn sum(bytes: &[u8]) -> u64 {
    bytes.iter().fold(1, |s, b| (s * 0x100_0193 + *b as u64) % 0x8000_0000)
}

/// "A check gives code, place and one count: the clauses of a good book, the nodes of a good query, else 0."
fn check(counted: Result<usize, Refusal>) -> String {
    match counted {
        Ok(count) => format!("0 0 {count}"),
        Err(refusal) => format!("{} {} 0", refusal.code, refusal.place),
    }
}

/// "The single query check now takes the book and checks it first" (document 02, C-18).
fn query_nodes(profile: Profile, case: &Case) -> Result<usize, Refusal> {
    let clauses = read::book(profile, &case.book)?;
    read::query(profile, &clauses, &case.query).map(|goal| crate::tree::nodes(&goal))
}

/// A check for C: the code, and above it the place of a fault or the count of what is good.
fn checked_number(counted: Result<usize, Refusal>) -> u64 {
    match counted {
        Ok(count) => count as u64 * 256,
        Err(refusal) => refusal.code as u64 + refusal.place as u64 * 256,
    }
}

/// "For C the answer is one 64-bit number". Its top 32 bits have the steps of a run, or the clause number of a pick and of an apply: with code 22 that of
/// the clause that got furthest, and in the upper 16 of them the argument.
fn number(a: &Answer, top: u32) -> u64 {
    let field = if a.code < 20 { a.place } else { a.bytes };
    a.code as u64 + field as u64 * 256 + top as u64 * 4294967296
}

fn clause_and_argument(a: &Answer) -> u32 {
    if a.code == 22 { a.furthest + a.argument * 65536 } else { a.clause }
}

fn all(a: &Answer) -> String {
    format!("{} {} {} {} {} {} {} {}", a.code, a.place, a.steps, a.span, a.bytes, a.clause, a.furthest, a.argument)
}

/// The numbers of a run, and what its two areas hold then.
fn of_run(entry: Entry, case: &Case) -> Result<String, String> {
    let profile = if matches!(entry, Entry::FlatRun | Entry::FlatRunForC) { Profile::Flat } else { Profile::Plain };
    let (mut area, mut answer) = (case.area.bytes(), case.answer.bytes());
    let a = run_in(profile, &case.book, &case.query, case.number, &mut area, &mut answer);
    if a.code == 21 {
        period::shortest(case, &a)?;
    }
    let numbers = match entry {
        Entry::RunForC | Entry::FlatRunForC => number(&a, a.steps).to_string(),
        _ => format!("{} {} {} {} {} {} {} {}", a.code, a.place, a.steps, a.span, a.bytes, a.answer, a.furthest, a.argument),
    };
    Ok(format!("{numbers} {} {}", sum(&area), sum(&answer)))
}

/// Code, place and bytes of what is printed, and what the area holds then.
fn printed(entry: Entry, case: &Case) -> Result<String, String> {
    let mut area = case.area.bytes();
    let (goal, list) = case.with_list();
    let text = match entry {
        Entry::PrintBook => again::book_printed(print::book_text(&case.book, &case.query))?,
        Entry::PrintGoal => again::goal_printed(&case.book, goal, list, print::goal_text(&case.book, goal, list))?,
        _ => again::answer_printed(&case.book, list, print::answer_text(&case.book, goal, list))?,
    };
    let numbers = match print::laid(text, &mut area) {
        Ok(bytes) => format!("0 0 {bytes}"),
        Err(refusal) => format!("{} {} 0", refusal.code, refusal.place),
    };
    Ok(format!("{numbers} {}", sum(&area)))
}

/// Code, place, and the bytes of what is read and of its names, and what the two areas hold then.
fn read(case: &Case, said: scan::Read<Texts>) -> Result<String, String> {
    let (mut area, mut names) = (case.area.bytes(), case.answer.bytes());
    let numbers = match text::laid(said, &mut area, &mut names) {
        Ok((bytes, of_names)) => format!("0 0 {bytes} {of_names}"),
        Err(scan::Refusal(code, place)) => format!("{code} {place} 0 0"),
    };
    Ok(format!("{numbers} {} {}", sum(&area), sum(&names)))
}

/// The same of a query, by its book and the list of names.
fn asked(case: &Case) -> Result<String, String> {
    let (text, list) = case.with_list();
    read(case, again::query_read(&case.book, text::query(text, &case.book, list))?)
}

/// The numbers of an entry that is lent an area, and what the area holds then.
fn lent(entry: Entry, case: &Case) -> String {
    let mut area = case.area.bytes();
    let numbers = match entry {
        Entry::Step => all(&step(Profile::Plain, &case.book, &case.query, &mut area)),
        Entry::FlatStep => all(&step(Profile::Flat, &case.book, &case.query, &mut area)),
        Entry::FlatStepForC => {
            let a = step(Profile::Flat, &case.book, &case.query, &mut area);
            number(&a, a.clause).to_string()
        }
        Entry::Apply => all(&apply(&case.book, &case.query, case.number, &mut area)),
        _ => {
            let a = apply(&case.book, &case.query, case.number, &mut area);
            number(&a, clause_and_argument(&a)).to_string()
        }
    };
    format!("{numbers} {}", sum(&area))
}

fn picked(entry: Entry, a: Answer) -> String {
    if entry == Entry::PickForC {
        return number(&a, clause_and_argument(&a)).to_string();
    }
    format!("{} {} {} {} {} {}", a.code, a.place, a.steps, a.clause, a.furthest, a.argument)
}

pub fn line(item: &Item) -> Result<String, String> {
    match item.entry {
        Entry::CheckBook => Ok(check(read::book(Profile::Plain, &item.case.book).map(|clauses| clauses.len()))),
        Entry::CheckQuery => Ok(check(query_nodes(Profile::Plain, &item.case))),
        Entry::CheckFlatQuery => Ok(check(query_nodes(Profile::Flat, &item.case))),
        Entry::FlatQueryForC => Ok(checked_number(query_nodes(Profile::Flat, &item.case)).to_string()),
        Entry::CheckFlatBook => Ok(flat::line(&item.case.book)),
        Entry::FlatBookForC => Ok(flat::number(&item.case.book).to_string()),
        entry @ (Entry::Pick | Entry::PickForC) => Ok(picked(entry, pick(&item.case.book, &item.case.query))),
        entry @ (Entry::PrintBook | Entry::PrintGoal | Entry::PrintAnswer) => printed(entry, &item.case),
        Entry::ReadText => read(&item.case, again::rules_read(text::rules(&item.case.book))?),
        Entry::ReadQuery => asked(&item.case),
        entry @ (Entry::Run | Entry::RunForC | Entry::FlatRun | Entry::FlatRunForC) => of_run(entry, &item.case),
        entry => Ok(lent(entry, &item.case)),
    }
}
