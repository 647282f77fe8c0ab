//! Building from a card whose spans are narrow, at most 4 wide: always settled, with no budget.
//!
//! The answer is as that of a build. Nothing is walked, so that placements are
//! always 0, and Unsettled never comes.

#[cfg(test)]
mod tests;

use crate::build::{build_into, Built};
use crate::entry::Entry;
use crate::given::Given;
use crate::layers::layers;
use crate::numbers::NARROW_WIDTH;
use crate::profile::{Kind, Profile};
use crate::reader;
use crate::refusal::{Reason, Refusal};
use crate::verdict::Found;

/// Settles the card.
///
/// The reader's refusals come first, then 12 where the output has fewer than
/// m+l−1 bytes, whichever verdict would follow, then 5 on a pair card, then 30
/// with the first entry whose span is not narrow. Sole and Several put m+l−1
/// letters at the start of the output and touch no later byte; all other
/// answers touch none.
pub fn settle_card(card: &[u8], out: &mut [u8]) -> Result<Built, Refusal> {
    let (profile, entries) = reader::entries(card)?;
    build_into(out, &profile, || of_narrow(&profile, &entries))
}

/// Settles the card of this kind and l whose entries stand in three lists.
///
/// Tested are 5, 6, 13 where the lists differ in length, 7, then the entries
/// in turn, 10 before 11, then 12, 5 on lists of a pair card, and 30, as for a
/// card. The output is as that for a card.
pub fn settle_lists(
    kind: usize,
    l: usize,
    words: &[u32],
    ones: &[u16],
    twos: &[u16],
    out: &mut [u8],
) -> Result<Built, Refusal> {
    let (profile, entries) = Given { words, ones, twos }.admitted(kind, l)?;
    build_into(out, &profile, || of_narrow(&profile, &entries))
}

/// What is found of these entries, or 5 where they are those of a pair card, or 30 at the first that is not narrow.
fn of_narrow(profile: &Profile, entries: &[Entry]) -> Result<Found, Refusal> {
    if profile.kind == Kind::Pair {
        return Err(Reason::Kind.at(0));
    }
    match entries.iter().position(|entry| !is_narrow(entry)) {
        Some(wider) => Err(Reason::Wider.at(wider)),
        None => Ok(layers(profile.l, entries)),
    }
}

/// Says whether the span of an entry is narrow.
fn is_narrow(entry: &Entry) -> bool {
    entry.places.each().count() <= usize::from(NARROW_WIDTH)
}
