// Books and queries from short texts.
use crate::dice::Dice;
use crate::pen::{clause, record, symbol};
use crate::random::{self, Shape};

/// What goes with a text: the numbers a to d, and the shape of what is at random.
pub struct Numbers {
    pub named: [u32; 4],
    pub shapes: [Shape; 3],
}

/// The bytes that a text stands for. Each letter writes something:
///   Vx variable   Ax constant   Kxy compound term x of arity y   Fxy formula x of arity y   Cx clause   Gx goal   E end of book   Bx a byte
///   Ux the variable x + turn   Wx the variable x + a   X the next new variable   Qx x constants   Zx x formulas of the predicate 99
///   Oxy x variables round a circle, from y on   Rx(..) the same x times   Sx a book at random of shape x   Tx a query at random of shape x
///   Mx x terms at random   Nx x bytes at random, mostly kinds   D damage to what is written   _ nothing
/// where x and y are digits, a to d, which stand for the numbers that go with the text, A to D for one more, p to s for one less, i for the turn
/// of a repetition, or j for i + 1.
pub fn play(text: &str, numbers: &Numbers, dice: &mut Dice) -> Vec<u8> {
    let mut player = Player { out: Vec::new(), numbers, dice, next: 0 };
    player.part(text, 0);
    player.out
}

struct Player<'a> {
    out: Vec<u8>,
    numbers: &'a Numbers,
    dice: &'a mut Dice,
    next: u32,
}

impl Player<'_> {
    fn part(&mut self, mut text: &str, turn: u32) {
        while let Some(op) = text.chars().next() {
            let value = |place: usize| self.value(text.as_bytes().get(place), turn);
            if op == 'R' {
                let (inside, after) = text[3..].split_once(')').expect("a closing bracket");
                (0..value(1)).for_each(|turn| self.part(inside, turn));
                text = after;
                continue;
            }
            let width = match op {
                'K' | 'F' | 'O' => 3,
                'E' | 'X' | 'D' | '_' => 1,
                _ => 2,
            };
            let (x, y) = (value(1), value(2));
            if "STMND".contains(op) {
                self.roll(op, x)
            } else {
                self.one(op, x, y, turn)
            }
            text = &text[width..];
        }
    }

    fn value(&self, letter: Option<&u8>, turn: u32) -> u32 {
        let named = |c: u8, first: u8| self.numbers.named[(c - first) as usize];
        match letter.copied() {
            Some(c @ b'a'..=b'd') => named(c, b'a'),
            Some(c @ b'A'..=b'D') => named(c, b'A') + 1,
            Some(c @ b'p'..=b's') => named(c, b'p').saturating_sub(1),
            Some(b'i') => turn,
            Some(b'j') => turn + 1,
            Some(c) => (c as char).to_digit(10).unwrap_or(0),
            None => 0,
        }
    }

    fn one(&mut self, op: char, x: u32, y: u32, turn: u32) {
        let out = &mut self.out;
        match op {
            'V' => record(out, 1, x),
            'U' => record(out, 1, x + turn),
            'W' => record(out, 1, x + self.numbers.named[0]),
            'A' => record(out, 2, x),
            'K' => symbol(out, 3, x, y),
            'F' => symbol(out, 4, x, y),
            'C' => clause(out, x),
            'G' => record(out, 6, x),
            'E' => out.push(7),
            'B' => out.push(x as u8),
            'Q' => (0..x).for_each(|_| record(out, 2, 0)),
            'Z' => (0..x).for_each(|_| symbol(out, 4, 99, 0)),
            'O' => (0..x).for_each(|i| record(out, 1, (y + i) % x)),
            'X' => {
                record(out, 1, self.next);
                self.next += 1;
            }
            _ => {}
        }
    }

    fn roll(&mut self, op: char, x: u32) {
        let shape = &self.numbers.shapes[x as usize % 3];
        match op {
            'S' => random::book(&mut self.out, shape, self.dice),
            'T' => random::query(&mut self.out, shape, self.dice),
            'M' => random::terms(&mut self.out, self.dice, x),
            'N' => random::noise(&mut self.out, self.dice, x),
            _ => random::damage(&mut self.out, self.dice),
        }
    }
}
