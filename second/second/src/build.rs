//! Building from a card: the verdict, the placements, and the letters in the lent output.

use crate::entry::Entry;
use crate::letters::spell;
use crate::pairs::pairs;
use crate::profile::{Kind, Profile};
use crate::reader;
use crate::refusal::{Reason, Refusal};
use crate::verdict::{Found, Verdict};
use crate::walk::walk;

/// What a build answers where it is not refused.
#[derive(Clone, Copy, Debug, PartialEq, Eq)]
pub struct Built {
    /// What was found.
    pub verdict: Verdict,
    /// The letters at the start of the output: m+l−1 for Sole and Several, and 0 otherwise.
    pub length: usize,
    /// The placements up to the verdict, or the budget where it is Unsettled; 0 on a pair card.
    pub placements: u32,
}

/// Builds from the card with this budget.
///
/// The reader's refusals come first, then 12 where the output has fewer than
/// m+l−1 bytes, whichever verdict would follow. Sole and Several put m+l−1
/// letters at the start of the output and touch no later byte; all other
/// answers touch none. On a pair card placements are 0, and the budget does
/// not matter.
pub fn build(card: &[u8], budget: u32, out: &mut [u8]) -> Result<Built, Refusal> {
    build_by(card, out, |profile, entries| find(profile, entries, budget))
}

/// Builds from the card, where its builds are found in this way.
pub fn build_by(
    card: &[u8],
    out: &mut [u8],
    find: impl FnOnce(&Profile, &[Entry]) -> Found,
) -> Result<Built, Refusal> {
    let (profile, entries) = reader::entries(card)?;
    build_into(out, &profile, || Ok(find(&profile, &entries)))
}

/// Tests 12, finds the builds of a card of this profile or refuses it, and puts the letters.
pub fn build_into(
    out: &mut [u8],
    profile: &Profile,
    find: impl FnOnce() -> Result<Found, Refusal>,
) -> Result<Built, Refusal> {
    let room = out.get_mut(..profile.build_length());
    let room = room.ok_or(Reason::Room.at(0))?;
    let found = find()?;
    let length = match found.verdict {
        Verdict::Sole | Verdict::Several => {
            room.copy_from_slice(&spell(profile.l, &found.words));
            room.len()
        }
        Verdict::None | Verdict::Unsettled => 0,
    };
    Ok(Built {
        verdict: found.verdict,
        length,
        placements: found.placements,
    })
}

/// What is found of the builds of a card with these entries.
pub fn find(profile: &Profile, entries: &[Entry], budget: u32) -> Found {
    match profile.kind {
        Kind::Pair => pairs(profile.l, entries),
        Kind::Span => walk(profile.l, entries, budget),
    }
}

#[cfg(test)]
mod tests;
