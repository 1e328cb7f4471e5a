// The second program: document 01 in the most direct style, with trees and a list of equations, written apart from the engine.
//
//   second stream SEED COUNT   a stream of so many items, as the program `try_entries` reads them
//   second calls SEED COUNT    a stream of so many calls for C, each once: those of the stored stream, and then others at random
//   second stored              the stream that is stored beside that program
//   second answers             reads a stream, and writes the lines that `try_entries` must write
//   second item N              reads a stream, and shows its N-th item, from 1
//   second table               holds the documents' cases to the results that the documents give, and others to results worked out by hand
//   second trace               reads what the program `trace` reads, and prints what it prints
//   second read              reads rules as text (document 02, C-13), and prints code, place, bytes of the book and of the names, and a sum over each
//   second pack N              reads a book and a query in document 01's notation, and writes them with budget N as `trace` reads them
//   second say N               reads the same, and prints what `trace` prints, the answer in the notation, and behind `if` the goal that is left
mod again;
mod answers;
mod arities;
mod build;
mod chains;
mod circles;
mod deep;
mod dice;
mod entries;
mod flat;
mod growing;
mod image;
mod item;
mod limits;
mod list;
mod namelist;
mod notation;
mod path;
mod pen;
mod period;
mod play;
mod print;
mod printed;
mod prints;
mod random;
mod read;
mod readings;
mod reason;
mod rooms;
mod scan;
mod stream;
mod stuck;
mod table;
mod text;
mod texts;
mod tree;
mod unify;
mod unknown;
mod worked;

use item::Item;
use std::io::{BufWriter, Read, Write};

type Done = Result<(), String>;

fn written(items: &[Item]) -> Done {
    let mut out = BufWriter::new(std::io::stdout());
    items.iter().try_for_each(|item| out.write_all(&item.bytes())).and_then(|()| out.flush()).map_err(|e| e.to_string())
}

fn items(stream: &[u8]) -> Result<Vec<Item>, String> {
    let (mut items, mut left) = (Vec::new(), stream);
    while !left.is_empty() {
        let (item, after) = Item::read(left).ok_or(format!("item {} is damaged", items.len() + 1))?;
        items.push(item);
        left = after;
    }
    Ok(items)
}

fn answers(stream: &[u8]) -> Done {
    let mut out = BufWriter::new(std::io::stdout());
    for (n, item) in items(stream)?.iter().enumerate() {
        let line = answers::line(item).map_err(|said| format!("item {}: {said}", n + 1))?;
        writeln!(out, "{line}").map_err(|e| e.to_string())?;
    }
    out.flush().map_err(|e| e.to_string())
}

fn show(stream: &[u8], n: &str) -> Done {
    let n: usize = n.parse().map_err(|_| "an item's number is from 1 on")?;
    let items = items(stream)?;
    let Item { entry, case } = items.get(n.wrapping_sub(1)).ok_or("there is no such item")?;
    let [area, answer] = [case.area, case.answer].map(|a| format!("{} from {} by {}", a.length, a.first, a.more));
    println!("{entry:?}, number {}, area {area}, answer area {answer}", case.number);
    println!("book {:02x?}\nquery {:02x?}", case.book, case.query);
    Ok(())
}

fn table() -> Done {
    let wrong = [table::all_wrong(), worked::all_wrong(), printed::all_wrong(), readings::all_wrong()].concat();
    if wrong.is_empty() { Ok(()) } else { Err(wrong.join("\n")) }
}

fn number(bytes: &[u8]) -> u32 {
    bytes.iter().fold(0, |n, b| n * 256 + *b as u32)
}

fn trace(input: &[u8]) -> String {
    if input.len() > 49163 {
        return "long".to_string();
    }
    if input.len() < 8 || number(&input[4..8]) as usize > input.len() - 8 {
        return "short".to_string();
    }
    let (book, query) = input[8..].split_at(number(&input[4..8]) as usize);
    let a = entries::run(book, query, number(&input[..4]), &mut [0; 16387], &mut [0; 16387]);
    format!("{} {} {} {} {}", a.code, a.place, a.steps, a.span, a.bytes)
}

fn pack(text: &str, budget: u32) -> Result<Vec<u8>, String> {
    let mut names = notation::Names::default();
    let mut text = notation::Text::new(text, &mut names);
    let book = image::of_book(&text.clauses()?);
    let query = image::of(&text.query()?);
    Ok([&budget.to_be_bytes()[..], &(book.len() as u32).to_be_bytes(), &book, &query].concat())
}

/// A run's numbers, its answer and the goal that is left.
fn say(text: &str, budget: u32) -> Result<String, String> {
    let mut names = notation::Names::default();
    let mut text = notation::Text::new(text, &mut names);
    let (clauses, query) = (text.clauses()?, text.query()?);
    let (book, image) = (image::of_book(&clauses), image::of(&query));
    let a = entries::run(&book, &image, budget, &mut [0; 16387], &mut [0; 16387]);
    let numbers = format!("{} {} {} {} {}", a.code, a.place, a.steps, a.span, a.bytes);
    if a.code < 20 {
        return Ok(numbers);
    }
    let (_, _, state) = path::follow(&clauses, query, budget);
    let left = if state.goal.is_empty() { String::new() } else { format!(" if {}", names.goal(&state.goal)) };
    Ok(format!("{numbers}: {}{left}", names.goal(&state.answer)))
}

fn text(bytes: &[u8]) -> String {
    match text::rules(bytes) {
        Ok(read) => {
            format!("0 0 {} {} {} {}", read.image.len(), read.names.len(), answers::sum(&read.image), answers::sum(&read.names))
        }
        Err(scan::Refusal(code, place)) => format!("{code} {place} 0 0 {} {}", answers::sum(&[]), answers::sum(&[])),
    }
}

fn input() -> Vec<u8> {
    let mut bytes = Vec::new();
    std::io::stdin().read_to_end(&mut bytes).expect("standard input");
    bytes
}

fn steps(budget: &str) -> Result<u32, String> {
    budget.parse().map_err(|_| "a budget is a number below 2^32".to_string())
}

fn packed(budget: &str) -> Done {
    let bytes = pack(&String::from_utf8_lossy(&input()), steps(budget)?)?;
    std::io::stdout().write_all(&bytes).map_err(|e| e.to_string())
}

fn said(budget: &str) -> Done {
    println!("{}", say(&String::from_utf8_lossy(&input()), steps(budget)?)?);
    Ok(())
}

fn made(stream: fn(u64, usize) -> Vec<Item>, seed: &str, count: &str) -> Done {
    match (seed.parse(), count.parse()) {
        (Ok(seed), Ok(count)) => written(&stream(seed, count)),
        _ => Err("seed and count are numbers".to_string()),
    }
}

fn chosen() -> Done {
    let words: Vec<String> = std::env::args().skip(1).collect();
    match words.iter().map(String::as_str).collect::<Vec<_>>()[..] {
        ["stream", seed, count] => made(stream::long, seed, count),
        ["calls", seed, count] => made(stream::calls, seed, count),
        ["stored"] => written(&stream::short()),
        ["answers"] => answers(&input()),
        ["item", n] => show(&input(), n),
        ["table"] => table(),
        ["trace"] => Ok(println!("{}", trace(&input()))),
        ["read"] => Ok(println!("{}", text(&input()))),
        ["pack", budget] => packed(budget),
        ["say", budget] => said(budget),
        _ => {
            Err("second stream SEED COUNT | calls SEED COUNT | stored | answers | item N | table | trace | read | pack BUDGET | say BUDGET"
                .to_string())
        }
    }
}

fn main() {
    // Terms are up to 4,096 deep, and the functions on them recursive.
    let done = std::thread::Builder::new().stack_size(1 << 26).spawn(chosen).expect("a thread").join().expect("the thread");
    if let Err(said) = done {
        eprintln!("{said}");
        std::process::exit(1);
    }
}
