// Cases from the lines of lists/.
use crate::dice::Dice;
use crate::item::{Area, Case};
use crate::play::{Numbers, play};
use crate::random::Shape;

pub const SMALL: &str = include_str!("lists/small");
pub const SIZES: &str = include_str!("lists/sizes");
pub const ANSWERS: &str = include_str!("lists/answers");
pub const RANDOM: &str = include_str!("lists/random");

#[derive(Clone)]
pub struct Line {
    book: &'static str,
    query: &'static str,
    options: Vec<(&'static str, &'static str)>,
}

/// The marks of a number: each in its turn; one by the dice; next to a power of two.
const MARKS: [char; 3] = [':', '~', '^'];

fn value(text: &str) -> u32 {
    text.parse().expect("a number")
}

impl Line {
    fn new(text: &'static str) -> Line {
        let mut words = text.split(' ');
        let (book, query) = (words.next().expect("a book"), words.next().expect("a query"));
        Line { book, query, options: words.map(|word| word.split_once('=').expect("name=number")).collect() }
    }

    fn number(&self, name: &str, usual: u32, turn: u32, dice: &mut Dice) -> u32 {
        let Some((_, text)) = self.options.iter().find(|(n, _)| *n == name) else { return usual };
        let Some(at) = text.find(MARKS) else { return value(text) };
        let (n, w) = (value(&text[..at]), value(&text[at + 1..]));
        match &text[at..at + 1] {
            ":" => n + turn % w,
            "~" => n + dice.below(w),
            _ => (n + (1 << dice.below(w)) + dice.below(3)).saturating_sub(1),
        }
    }

    pub fn weight(&self) -> u32 {
        self.number("weight", 1, 0, &mut Dice::new(0))
    }

    fn turns(&self) -> u32 {
        self.options.iter().filter_map(|(_, text)| text.split_once(':')).map(|(_, w)| value(w)).max().unwrap_or(1)
    }

    fn area(&self, name: &str, turn: u32, dice: &mut Dice) -> Area {
        Area { length: self.number(name, 16387, turn, dice) as usize, ..Area::usual(dice) }
    }

    pub fn case(&self, turn: u32, dice: &mut Dice) -> Case {
        let named = ["a", "b", "c", "d"].map(|name| self.number(name, 0, turn, dice));
        let numbers = Numbers { named, shapes: [0, 1, 2].map(|sort| Shape::new(dice, sort)) };
        let book = play(self.book, &numbers, dice);
        let query = play(self.query, &numbers, dice);
        let [area, answer] = ["area", "answer"].map(|name| self.area(name, turn, dice));
        Case { book, query, number: self.number("budget", 1000, turn, dice), area, answer }
    }
}

pub fn lines(list: &'static str) -> Vec<Line> {
    list.lines().filter(|text| !text.starts_with('#')).map(Line::new).collect()
}

/// Each line, for all numbers of its ranges.
pub fn cases(list: &'static str, dice: &mut Dice) -> Vec<Case> {
    let mut all = Vec::new();
    for line in lines(list) {
        all.extend((0..line.turns()).map(|turn| line.case(turn, dice)));
    }
    all
}
