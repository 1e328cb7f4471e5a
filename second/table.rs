// Document 01's table, the errors that look reasonable, and document 001's figure 1, from their own notation, with the results that the documents give.
use crate::dice::Dice;
use crate::entries::{Answer, run};
use crate::image;
use crate::item::{Area, Case};
use crate::notation::{Names, Text};

/// Code, place, steps and span, and the goal and the answer that are left; nothing is where the input is refused. The goals of P3 and of figure 1 are the
/// documents' own; the others, and the answers (document 02, C-11), are worked out by hand.
struct Row {
    name: &'static str,
    book: Vec<u8>,
    query: Vec<u8>,
    budget: u32,
    says: [u32; 4],
    left: [Vec<u8>; 2],
}

/// A book and a query as bytes.
pub fn texts(book: &str, query: &str) -> (Vec<u8>, Vec<u8>) {
    let mut names = Names::default();
    let clauses = Text::new(book, &mut names).clauses().expect(book);
    let goal = Text::new(query, &mut names).query().expect(query);
    (image::of_book(&clauses), image::of(&goal))
}

/// A goal and an answer as bytes: the two share their variables, the goal's first, and the answer has as many formulas as the query.
pub fn left((book, query): (&str, &str), goal: &str, answer: &str) -> [Vec<u8>; 2] {
    let mut names = Names::default();
    Text::new(book, &mut names).clauses().expect(book);
    let formulas = Text::new(query, &mut names).query().expect(query).len();
    let comma = if goal.trim().is_empty() || formulas == 0 { "" } else { "," };
    let mut both = Text::new(&format!("{goal}{comma}{answer}"), &mut names).query().expect(answer);
    let answer = both.split_off(both.len() - formulas);
    [image::of(&both), image::of(&answer)]
}

/// The text has a goal, and behind a bar an answer.
fn row(name: &'static str, inputs: (&str, &str), budget: u32, says: [u32; 4], text: &str) -> Row {
    let (goal, answer) = text.split_once('|').expect("a goal and an answer");
    let left = left(inputs, goal, answer);
    let (book, query) = texts(inputs.0, inputs.1);
    Row { name, book, query, budget, says, left }
}

/// Good and bad queries beside the books that are refused.
fn refused(rows: &mut Vec<Row>, name: &'static str, book: &[u8], code: u32, place: u32) {
    for query in [&[6, 0, 0][..], &[], &[6, 9, 9, 9]] {
        let (book, query) = (book.to_vec(), query.to_vec());
        rows.push(Row { name, book, query, budget: 10000, says: [code, place, 0, 0], left: [vec![], vec![]] });
    }
}

const CIRCLE: &str = "p :- q. q :- s. s :- p.";
const FIGURE: &str = "p(X,a) :- p(X,f(Y)), p(Z,Y), p(Y,Z). p(X,f(a)).";
const SPENT: &str = "c(s(X),Y) :- c(X,g(a,a,a,a,a,a,a)). c(a,Y).";

/// The cases marked P.
fn marked() -> Vec<Row> {
    let feeds = ("feeds(X,Y) :- feeds(X,Z), pipe(Z,Y).", "feeds(a,V)");
    let mut rows = vec![
        row("P1", feeds, 10000, [21, 0, 1, 1], "feeds(a,Z), pipe(Z,V) | feeds(a,V)"),
        row("P2", (CIRCLE, "p"), 10000, [21, 0, 7, 3], "q | p"),
        row("P3", (CIRCLE, "p"), 6, [23, 0, 6, 0], "p | p"),
        row("P4", (CIRCLE, "p"), 7, [21, 0, 7, 3], "q | p"),
        row("P5", ("e(a).", "e(a), e(a)"), 10000, [20, 0, 2, 0], "| e(a), e(a)"),
        row("P6", ("e(a).", "e(b)"), 10000, [22, 0, 0, 0], "e(b) | e(b)"),
        row("P7", ("h(X,f(X)).", "h(Y,Y)"), 10000, [22, 0, 0, 0], "h(Y,Y) | h(Y,Y)"),
        row("P8", ("w(b) :- w(a). w(a).", "w(V)"), 10000, [20, 0, 2, 0], "| w(b)"),
        row("P9", ("", ""), 0, [20, 0, 0, 0], "|"),
    ];
    refused(&mut rows, "P10", &[5, 17], 4, 0);
    refused(&mut rows, "P11", &[5, 0, 4, 0, 1, 1, 2, 0], 3, 6);
    refused(&mut rows, "P12", &[5, 0, 4, 0, 1, 1, 1, 0, 1, 7], 6, 6);
    rows
}

/// `inner` in so many of `outer(..)`.
fn deep(times: usize, outer: &str, inner: &str) -> String {
    format!("{}{inner}{}", format!("{outer}(").repeat(times), ")".repeat(times))
}

/// Those without a mark.
fn unmarked() -> Vec<Row> {
    let many = vec!["e(a)"; 300].join(", ");
    let (tall, grown) = (deep(4094, "f", "a"), deep(511, "f", "a"));
    let mut rows = vec![
        row("13", ("e(a).", &many), 10000, [20, 0, 300, 0], &format!("| {many}")),
        row("14", ("n(X) :- n(f(X)).", "n(a)"), 10000, [24, 0, 4094, 0], &format!("n({tall}) | n(a)")),
        row("15", ("g(X) :- g(f(X)), z.", "g(a)"), 10000, [24, 0, 511, 0], &format!("g({grown}){} | g(a)", ", z".repeat(511))),
    ];
    refused(&mut rows, "16", &[], 2, 0);
    refused(&mut rows, "17", &[7, 7], 2, 1);
    rows
}

/// Figure 1, and what the errors that look reasonable get wrong.
fn others() -> Vec<Row> {
    let spent = format!("c({},a)", deep(1000, "s", "a"));
    vec![
        row("figure 1", (FIGURE, "p(U,U)"), 10000, [21, 0, 4, 2], "p(Z1,a), p(a,Z1), p(a,Z) | p(a,a)"),
        row("one step", ("e(a).", "e(a), e(V)"), 1, [23, 0, 1, 0], "e(V) | e(a), e(V)"),
        row("shorter", ("p :- q, q. q :- r. r.", "p"), 10000, [20, 0, 5, 0], "| p"),
        row("instance", ("w(a) :- w(b). w(b) :- w(V).", "w(V)"), 10000, [21, 0, 4, 2], "w(V) | w(a)"),
        row("spent", (SPENT, &spent), 10000, [20, 0, 1001, 0], &format!("| {spent}")),
    ]
}

fn rows() -> Vec<Row> {
    [marked(), unmarked(), others()].into_iter().flatten().collect()
}

/// What is wrong with a row, if anything is.
fn wrong(row: &Row) -> Option<String> {
    let (mut area, mut space) = (vec![170; 16387], vec![85; 16387]);
    let a = run(&row.book, &row.query, row.budget, &mut area, &mut space);
    let Answer { code, place, steps, span, bytes, answer, .. } = a;
    if [code as u32, place, steps, span] != row.says || [bytes, answer].map(|n| n as usize) != row.left.each_ref().map(Vec::len) {
        return Some(format!("{}: {:?}, and not {:?}", row.name, a, row.says));
    }
    let [goal, instance] = &row.left;
    let kept = area[goal.len()..].iter().all(|b| *b == 170) && space[instance.len()..].iter().all(|b| *b == 85);
    let same = area.starts_with(goal) && space.starts_with(instance) && kept;
    (!same).then(|| format!("{}: another goal is left, or another answer", row.name))
}

pub fn all_wrong() -> Vec<String> {
    rows().iter().filter_map(wrong).collect()
}

pub fn cases(dice: &mut Dice) -> Vec<Case> {
    let mut areas = || (Area::usual(dice), Area::usual(dice));
    let case = |Row { book, query, budget, .. }| {
        let (area, answer) = areas();
        Case { book, query, number: budget, area, answer }
    };
    rows().into_iter().map(case).collect()
}
