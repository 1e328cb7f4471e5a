// A text byte by byte (document 01's notation, document 02's C-13): blanks, marks and words.

/// A code and a place.
#[derive(Debug, PartialEq)]
pub struct Refusal(pub u8, pub usize);

pub type Read<T> = Result<T, Refusal>;

pub struct Scan<'a> {
    pub bytes: &'a [u8],
    pub at: usize,
}

fn in_word(b: u8) -> bool {
    b.is_ascii_alphanumeric() || b == b'_'
}

fn is_blank(b: u8) -> bool {
    matches!(b, b' ' | b'\t' | b'\n' | b'\r')
}

pub fn starts_variable(b: u8) -> bool {
    b.is_ascii_uppercase() || b == b'_'
}

impl Scan<'_> {
    pub fn peek(&self) -> Option<u8> {
        self.bytes.get(self.at).copied()
    }

    pub fn unexpected<T>(&self) -> Read<T> {
        Err(Refusal(41, self.at))
    }

    pub fn skip(&mut self) {
        while let Some(b) = self.peek() {
            if b == b'%' {
                self.at = self.bytes[self.at..].iter().position(|b| *b == b'\n').map_or(self.bytes.len(), |n| self.at + n);
            } else if is_blank(b) {
                self.at += 1;
            } else {
                return;
            }
        }
    }

    /// A mark of one byte, behind blanks.
    pub fn mark(&mut self, mark: u8) -> bool {
        self.skip();
        let there = self.peek() == Some(mark);
        self.at += there as usize;
        there
    }

    /// A full stop, "after which stands a blank or the text's end".
    pub fn stop(&mut self) -> Read<()> {
        if !self.mark(b'.') || !self.peek().is_none_or(|b| is_blank(b) || b == b'%') {
            return self.unexpected();
        }
        Ok(())
    }

    pub fn word(&mut self) -> Vec<u8> {
        let from = self.at;
        while self.peek().is_some_and(in_word) {
            self.at += 1;
        }
        self.bytes[from..self.at].to_vec()
    }

    pub fn name(&mut self) -> Read<Vec<u8>> {
        let from = self.at;
        let name = self.word();
        if name.len() > 32 { Err(Refusal(42, from + 32)) } else { Ok(name) }
    }
}
