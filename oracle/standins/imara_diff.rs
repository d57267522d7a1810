//! The part of `imara_diff` that the text merge uses: lines as tokens. There is no diff here, the hunks are given.
use std::{collections::HashMap, hash::Hash, ops::Index, ops::Range};

/// A line's number: two tokens are equal exactly when their lines are.
#[derive(Debug, Clone, Copy, PartialEq, Eq, Hash)]
pub struct Token(u32);

/// Every line seen so far, once.
#[derive(Clone)]
pub struct Interner<T> {
    numbers: HashMap<T, Token>,
    lines: Vec<T>,
}

impl<T: Copy + Eq + Hash> Interner<T> {
    fn intern(&mut self, line: T) -> Token {
        let Interner { numbers, lines } = self;
        *numbers.entry(line).or_insert_with(|| {
            lines.push(line);
            Token(lines.len() as u32 - 1)
        })
    }
}

impl<T> Index<Token> for Interner<T> {
    type Output = T;

    fn index(&self, token: Token) -> &T {
        &self.lines[token.0 as usize]
    }
}

/// Two texts as tokens of one interner.
#[derive(Clone)]
pub struct InternedInput<T> {
    pub before: Vec<Token>,
    pub after: Vec<Token>,
    pub interner: Interner<T>,
}

impl<T> Default for InternedInput<T> {
    fn default() -> Self {
        InternedInput {
            before: Vec::new(),
            after: Vec::new(),
            interner: Interner {
                numbers: HashMap::new(),
                lines: Vec::new(),
            },
        }
    }
}

impl<T: Copy + Eq + Hash> InternedInput<T> {
    pub fn update_before(&mut self, lines: impl Iterator<Item = T>) {
        self.before = lines.map(|line| self.interner.intern(line)).collect();
    }

    pub fn update_after(&mut self, lines: impl Iterator<Item = T>) {
        self.after = lines.map(|line| self.interner.intern(line)).collect();
    }
}

pub mod sources {
    /// The lines of a text.
    pub struct ByteLines<'a> {
        rest: &'a [u8],
    }

    /// Lines end behind each newline, which stays in its line; an empty text has none.
    pub fn byte_lines(text: &[u8]) -> ByteLines<'_> {
        ByteLines { rest: text }
    }

    impl<'a> Iterator for ByteLines<'a> {
        type Item = &'a [u8];

        fn next(&mut self) -> Option<&'a [u8]> {
            if self.rest.is_empty() {
                return None;
            }
            let end = self
                .rest
                .iter()
                .position(|b| *b == b'\n')
                .map_or(self.rest.len(), |at| at + 1);
            let (line, rest) = self.rest.split_at(end);
            self.rest = rest;
            Some(line)
        }
    }
}

#[derive(Debug, Clone, Copy, PartialEq, Eq)]
pub enum Algorithm {
    Myers,
}

pub struct Hunk {
    pub before: Range<u32>,
    pub after: Range<u32>,
}

/// Named by the source beside the text merge, and never run.
pub struct Diff;

impl Diff {
    pub fn compute<T>(_: Algorithm, _: &InternedInput<T>) -> Diff {
        unreachable!("hunks are given, none is computed")
    }

    pub fn postprocess_lines<T>(&mut self, _: &InternedInput<T>) {}

    pub fn hunks(&self) -> std::vec::IntoIter<Hunk> {
        Vec::new().into_iter()
    }
}
