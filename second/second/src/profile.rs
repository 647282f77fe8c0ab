//! What a card is as a whole: its kind, its l and its m, each within its limits.
//!
//! The reader and the writer test the three here, so that each limit is tested
//! in one place. The numbers come as machine words and are taken whole: 257 is
//! no kind, though its lowest byte is 1.

use crate::numbers::{
    BLOCK, ENTRIES_PER_BLOCK, FEWEST_ENTRIES, FEWEST_LETTERS, MOST_ENTRIES, MOST_LETTERS, PAIR,
    SPAN,
};
use crate::refusal::{Reason, Refusal};

/// The two kinds of card.
#[derive(Clone, Copy, Debug, PartialEq, Eq)]
pub enum Kind {
    /// Each entry has one or two places.
    Pair,
    /// Each entry has an unbroken run of places.
    Span,
}

impl Kind {
    /// The number that a card stores for this kind.
    pub fn number(self) -> u8 {
        match self {
            Kind::Pair => PAIR,
            Kind::Span => SPAN,
        }
    }

    /// The kind with this number, or the refusal 5.
    pub fn of_number(number: usize) -> Result<Kind, Refusal> {
        match u8::try_from(number) {
            Ok(PAIR) => Ok(Kind::Pair),
            Ok(SPAN) => Ok(Kind::Span),
            _ => Err(Reason::Kind.at(0)),
        }
    }
}

/// What admitting a card answers.
#[derive(Clone, Copy, Debug, PartialEq, Eq)]
pub struct Profile {
    /// The card's kind.
    pub kind: Kind,
    /// The letters of each word.
    pub l: u8,
    /// The number of entries.
    pub m: u16,
}

impl Profile {
    /// The number of blocks, block 0 included.
    pub fn blocks(&self) -> usize {
        1 + usize::from(self.m).div_ceil(ENTRIES_PER_BLOCK)
    }

    /// The card's length in bytes.
    pub fn size(&self) -> usize {
        self.blocks() * BLOCK
    }

    /// The letters of a build: m+l−1.
    pub fn build_length(&self) -> usize {
        usize::from(self.m) + usize::from(self.l) - 1
    }
}

/// The letters of each word, where l is within its limits, or the refusal 6.
pub fn letters(l: usize) -> Result<u8, Refusal> {
    match u8::try_from(l) {
        Ok(l) if (FEWEST_LETTERS..=MOST_LETTERS).contains(&l) => Ok(l),
        _ => Err(Reason::WordLength.at(0)),
    }
}

/// The number of entries, where m is within its limits, or the refusal 7.
pub fn count(m: usize) -> Result<u16, Refusal> {
    match u16::try_from(m) {
        Ok(m) if (FEWEST_ENTRIES..=MOST_ENTRIES).contains(&m) => Ok(m),
        _ => Err(Reason::Count.at(0)),
    }
}

#[cfg(test)]
mod tests {
    use super::*;

    #[test]
    fn a_kind_is_a_whole_number() {
        assert_eq!(Kind::of_number(1), Ok(Kind::Pair));
        assert_eq!(Kind::of_number(2), Ok(Kind::Span));
        for number in [0, 3, 255, 256, 257, 258, 65_537, usize::MAX] {
            assert_eq!(Kind::of_number(number), Err(Reason::Kind.at(0)));
        }
    }

    #[test]
    fn the_limits_of_l_and_m() {
        assert_eq!([letters(2), letters(12)], [Ok(2), Ok(12)]);
        for l in [0, 1, 13, 255, 256, 258, 268, 65_538, usize::MAX] {
            assert_eq!(letters(l), Err(Reason::WordLength.at(0)));
        }
        assert_eq!([count(1), count(504)], [Ok(1), Ok(504)]);
        for m in [0, 505, 65_535, 65_536, 65_537, 66_040, usize::MAX] {
            assert_eq!(count(m), Err(Reason::Count.at(0)));
        }
    }

    #[test]
    fn the_size_goes_by_blocks_of_63_entries() {
        let size = |m| {
            let kind = Kind::Pair;
            Profile { kind, l: 2, m }.size()
        };
        assert_eq!([1, 63, 64, 126].map(size), [1024, 1024, 1536, 1536]);
        assert_eq!([127, 441, 442, 504].map(size), [2048, 4096, 4608, 4608]);
    }

    #[test]
    fn the_length_of_a_build() {
        let length = |(l, m)| {
            let kind = Kind::Span;
            Profile { kind, l, m }.build_length()
        };
        assert_eq!([(2, 1), (12, 1), (2, 4)].map(length), [2, 12, 5]);
        assert_eq!([(2, 504), (12, 504)].map(length), [505, 515]);
    }
}
