//! How many builds a pair card has.
//!
//! The number is 0 or a power of two, and the power is given by its exponent.
//! Nothing is written, so that there is no output, and nothing is walked, so
//! that there is no budget.

#[cfg(test)]
mod tests;

use crate::entry::Entry;
use crate::given::Given;
use crate::pairs::choices;
use crate::profile::{Kind, Profile};
use crate::reader;
use crate::refusal::{Reason, Refusal};
use crate::verdict::Verdict;

/// The number of builds.
#[derive(Clone, Copy, Debug, PartialEq, Eq)]
pub enum Count {
    /// There is none.
    None,
    /// There are two to the power of this exponent; one, where it is 0.
    Power(u32),
}

impl Count {
    /// The verdict of a build from a card that has so many.
    pub fn verdict(self) -> Verdict {
        match self {
            Count::None => Verdict::None,
            Count::Power(0) => Verdict::Sole,
            Count::Power(_) => Verdict::Several,
        }
    }
}

/// The number of builds of the card: the reader's refusals come first, then 5 on a span card.
pub fn count_card(card: &[u8]) -> Result<Count, Refusal> {
    let (profile, entries) = reader::entries(card)?;
    of_pairs(&profile, &entries)
}

/// The number of builds of the card of this kind and l whose entries stand in three lists.
///
/// Tested are 5, 6, 13 where the lists differ in length, 7, then the entries
/// in turn, 10 before 11, and last 5 on lists of a span card.
pub fn count_lists(
    kind: usize,
    l: usize,
    words: &[u32],
    ones: &[u16],
    twos: &[u16],
) -> Result<Count, Refusal> {
    let (profile, entries) = Given { words, ones, twos }.admitted(kind, l)?;
    of_pairs(&profile, &entries)
}

/// The number of builds of these entries, or 5 where they are those of a span card.
fn of_pairs(profile: &Profile, entries: &[Entry]) -> Result<Count, Refusal> {
    match profile.kind {
        Kind::Pair => Ok(choices(profile.l, entries).map_or(Count::None, Count::Power)),
        Kind::Span => Err(Reason::Kind.at(0)),
    }
}
