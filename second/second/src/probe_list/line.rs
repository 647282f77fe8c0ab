//! One line of a list, as its text must be.

use crate::letters;
use crate::numbers::{COMMA, HYPHEN, MOST_LISTED, NEWLINE, TAB};

/// What stands between the two numbers of a line.
#[derive(Clone, Copy, Debug, PartialEq, Eq)]
pub enum Mark {
    /// The numbers are the two places of a pair.
    Comma,
    /// The numbers are the first and the last place of a span.
    Hyphen,
}

/// What a line says.
#[derive(Clone, Copy, Debug, PartialEq, Eq)]
pub struct Line {
    /// The letters of the word, of which there is at least one.
    pub letters: usize,
    /// The word's value; of more than 16 letters only the last ones count.
    pub word: u32,
    /// The first number, or the only one.
    pub first: u16,
    /// The mark and the second number, where there are two.
    pub second: Option<(Mark, u16)>,
}

impl Line {
    /// The first line of a text, and what follows its newline, or nothing where the line is not as it must be.
    pub fn first_of(text: &[u8]) -> Option<(Line, &[u8])> {
        let (letters, word, text) = word(text)?;
        let text = text.strip_prefix(&[TAB])?;
        let (first, text) = number(text)?;
        let (second, text) = match mark(text) {
            Some((mark, text)) => {
                let (second, text) = number(text)?;
                (Some((mark, second)), text)
            }
            None => (None, text),
        };
        let text = text.strip_prefix(&[NEWLINE])?;
        let line = Line {
            letters,
            word,
            first,
            second,
        };
        Some((line, text))
    }

    /// The mark, where there is one.
    pub fn mark(&self) -> Option<Mark> {
        self.second.map(|(mark, _)| mark)
    }
}

/// The number of letters that a text begins with, their value, and what follows them.
fn word(text: &[u8]) -> Option<(usize, u32, &[u8])> {
    let mut word = 0;
    let mut letters = 0;
    while let Some(code) = text.get(letters).and_then(|&byte| letters::code(byte)) {
        word = word << 2 | code;
        letters += 1;
    }
    (letters > 0).then(|| (letters, word, &text[letters..]))
}

/// The mark that a text begins with, and what follows it.
fn mark(text: &[u8]) -> Option<(Mark, &[u8])> {
    match *text {
        [COMMA, ref text @ ..] => Some((Mark::Comma, text)),
        [HYPHEN, ref text @ ..] => Some((Mark::Hyphen, text)),
        _ => None,
    }
}

/// The number that a text begins with, without a needless zero before it, and what follows it.
fn number(text: &[u8]) -> Option<(u16, &[u8])> {
    let mut number = 0;
    let mut digits = 0;
    while let Some(&digit @ b'0'..=b'9') = text.get(digits) {
        number = 10 * number + u32::from(digit - b'0');
        if number > MOST_LISTED {
            return None;
        }
        digits += 1;
    }
    let is_needless = digits > 1 && text[0] == b'0';
    // It is at most 65,535.
    (digits > 0 && !is_needless).then(|| (number as u16, &text[digits..]))
}
