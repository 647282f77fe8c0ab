//! A list as a card.

use super::line::{Line, Mark};
use crate::numbers::{MOST_ENTRIES, NO_PLACE};
use crate::profile::Kind;
use crate::refusal::{Reason, Refusal};
use crate::writer;

/// Writes the card that a list says, and answers its length.
///
/// The text comes first, line by line, with lines counted from 1: 23, then 24
/// where the mark differs from an earlier one, 25 where the word is not as long
/// as the first one, 26 where a place is 0. Then come the tests of the writer
/// with their own places: 6, 7, the entries in turn, and 12 last. A refusal
/// changes no byte, and the bytes after the card are never changed.
pub fn import(list: &[u8], out: &mut [u8]) -> Result<usize, Refusal> {
    let listed = Listed::of_text(list)?;
    let Listed {
        l,
        words,
        ones,
        twos,
        ..
    } = &listed;
    let kind = usize::from(listed.kind().number());
    writer::write(kind, *l, words, ones, twos, out)
}

/// What the lines of a list say, with its places as a card counts them.
struct Listed {
    /// The letters of the first word, and so of every one.
    l: usize,
    /// The mark of every line that has one.
    mark: Option<Mark>,
    words: Vec<u32>,
    ones: Vec<u16>,
    twos: Vec<u16>,
}

impl Listed {
    /// What a list says, where its text is as it must be.
    fn of_text(mut text: &[u8]) -> Result<Listed, Refusal> {
        let most = usize::from(MOST_ENTRIES);
        let mut listed = Listed {
            l: 0,
            mark: None,
            words: Vec::with_capacity(most),
            ones: Vec::with_capacity(most),
            twos: Vec::with_capacity(most),
        };
        // There is a first line in any case: a list without one is refused there.
        for number in 1.. {
            let (line, rest) = Line::first_of(text).ok_or(Reason::Text.at(number))?;
            listed.add(line).map_err(|reason| reason.at(number))?;
            text = rest;
            if text.is_empty() {
                break;
            }
        }
        if listed.kind() == Kind::Span {
            listed.close_spans();
        }
        Ok(listed)
    }

    /// Adds a line, or says what is wrong with it beside the lines before it.
    fn add(&mut self, line: Line) -> Result<(), Reason> {
        if self.words.is_empty() {
            self.l = line.letters;
        }
        match (self.mark, line.mark()) {
            (Some(earlier), Some(mark)) if mark != earlier => return Err(Reason::Mixed),
            (None, mark) => self.mark = mark,
            _ => {}
        }
        if line.letters != self.l {
            return Err(Reason::Uneven);
        }
        self.words.push(line.word);
        self.ones.push(place(line.first)?);
        self.twos.push(match line.second {
            Some((_, second)) => place(second)?,
            None => NO_PLACE,
        });
        Ok(())
    }

    /// The kind of the card: that of pairs, unless there is a hyphen.
    fn kind(&self) -> Kind {
        match self.mark {
            Some(Mark::Hyphen) => Kind::Span,
            Some(Mark::Comma) | None => Kind::Pair,
        }
    }

    /// Makes each line with one number the span from that place to itself.
    fn close_spans(&mut self) {
        for (two, one) in self.twos.iter_mut().zip(&self.ones) {
            // No listed place is as high as what stands for no place.
            if *two == NO_PLACE {
                *two = *one;
            }
        }
    }
}

/// The place on a card that a list means by this number: one less, as a list counts from 1.
fn place(listed: u16) -> Result<u16, Reason> {
    listed.checked_sub(1).ok_or(Reason::Zero)
}
