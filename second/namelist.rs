// Lists of names (document 02, C-13): "record kind, number, length in one byte, name; entries rise by kind, then number".
use std::collections::{BTreeMap, HashMap};

/// A kind and a number.
pub type Symbol = (u8, u16);

pub const CONSTANT: u8 = 2;
pub const COMPOUND: u8 = 3;
pub const PREDICATE: u8 = 4;

/// The names that a list gives, and the numbers by them.
#[derive(Clone, Default)]
pub struct Names {
    names: BTreeMap<Symbol, Vec<u8>>,
    numbers: HashMap<(u8, Vec<u8>), u16>,
}

/// "A small ASCII letter, then letters, digits or underscores", "at most 32 bytes".
fn is_name(bytes: &[u8]) -> bool {
    let goes_on = |b: &u8| b.is_ascii_alphanumeric() || *b == b'_';
    bytes.first().is_some_and(u8::is_ascii_lowercase) && bytes.iter().all(goes_on) && bytes.len() <= 32
}

/// An entry from the front, and what is behind it.
fn entry(list: &[u8]) -> Option<(Symbol, &[u8], &[u8])> {
    let [kind @ CONSTANT..=PREDICATE, high, low, length, rest @ ..] = list else { return None };
    let (name, behind) = rest.split_at_checked(*length as usize)?;
    is_name(name).then_some(((*kind, u16::from_be_bytes([*high, *low])), name, behind))
}

pub fn written<'a>(entries: impl IntoIterator<Item = (&'a Symbol, &'a Vec<u8>)>) -> Vec<u8> {
    let bytes = |(symbol, name): (&Symbol, &Vec<u8>)| {
        let [high, low] = symbol.1.to_be_bytes();
        [&[symbol.0, high, low, name.len() as u8][..], name].concat()
    };
    entries.into_iter().flat_map(bytes).collect()
}

impl Names {
    /// Nothing where the bytes are no such list, or "a name shared by two symbols of one sort" (C-14) is in it.
    pub fn read(list: &[u8]) -> Option<Names> {
        let (mut all, mut left) = (Names::default(), list);
        while !left.is_empty() {
            let (symbol, name, behind) = entry(left)?;
            let rises = all.names.last_key_value().is_none_or(|(before, _)| *before < symbol);
            if !rises || all.numbers.contains_key(&(symbol.0, name.to_vec())) {
                return None;
            }
            all.add(symbol, name);
            left = behind;
        }
        Some(all)
    }

    fn add(&mut self, symbol: Symbol, name: &[u8]) {
        self.names.insert(symbol, name.to_vec());
        self.numbers.insert((symbol.0, name.to_vec()), symbol.1);
    }

    pub fn of(&self, kind: u8, number: u16) -> Option<&[u8]> {
        self.names.get(&(kind, number)).map(Vec::as_slice)
    }

    /// The name's number; a new name gets the one behind the greatest of its sort.
    pub fn number(&mut self, kind: u8, name: &[u8]) -> u16 {
        if let Some(number) = self.numbers.get(&(kind, name.to_vec())) {
            return *number;
        }
        let last = self.names.range((kind, 0)..=(kind, u16::MAX)).next_back();
        let next = last.map_or(0, |((_, number), _)| number + 1);
        self.add((kind, next), name);
        next
    }

    /// As the reader of rules writes it: numbers from 0 with none left out, and at most 61,439 of a sort, so that each new name of a query, 4,096 of a sort at most, has a
    /// number of two bytes.
    pub fn in_turn(&self) -> bool {
        [CONSTANT, COMPOUND, PREDICATE].into_iter().all(|kind| {
            let numbers = self.names.range((kind, 0)..=(kind, u16::MAX)).map(|((_, number), _)| *number as usize);
            numbers.enumerate().all(|(at, number)| number == at && number < 61439)
        })
    }

    pub fn entries(self) -> Vec<(Symbol, Vec<u8>)> {
        self.names.into_iter().collect()
    }

    pub fn list(&self) -> Vec<u8> {
        written(&self.names)
    }
}
