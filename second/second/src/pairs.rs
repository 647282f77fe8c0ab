//! The verdict on pair cards, and the choices that their builds have.
//!
//! Places with one candidate take it, as document 000 does in section 3. What
//! is left are rings, each of which may be turned to two sides. Neighbouring
//! places tie the sides of their rings to each other, and what stays free are
//! the choices that a build has.

mod rings;
mod settling;
#[cfg(test)]
mod tests;
mod ties;

use crate::entry::Entry;
use crate::verdict::{Found, Verdict};

use rings::{Rings, Side, Stand, SETTLED};
use ties::Ties;

/// All that two rings can be turned to.
const SIDES_OF_TWO: [(Side, Side); 4] = [(0, 0), (0, 1), (1, 0), (1, 1)];

/// Judges the entries of a pair card whose words have l letters.
///
/// Placements are always 0, and the verdict is never Unsettled.
pub fn pairs(l: u8, entries: &[Entry]) -> Found {
    let (verdict, words) = match builds(l, entries) {
        None => (Verdict::None, Vec::new()),
        Some(Builds { first, choices: 0 }) => (Verdict::Sole, first),
        Some(Builds { first, .. }) => (Verdict::Several, first),
    };
    Found {
        verdict,
        placements: 0,
        words,
    }
}

/// The choices that the builds of these entries have, if there is a build: with n choices there are 2^n builds.
pub fn choices(l: u8, entries: &[Entry]) -> Option<u32> {
    builds(l, entries).map(|builds| builds.choices)
}

/// The builds of a card that has any.
struct Builds {
    /// The words of the alphabetically first build.
    first: Vec<u32>,
    /// The choices between two ways that are free of each other: there are 2^choices builds.
    choices: u32,
}

/// What the builds of these entries are, if there are any.
fn builds(l: u8, entries: &[Entry]) -> Option<Builds> {
    let left = settling::settle(entries)?;
    let rings = Rings::through(entries, &left);
    let ties = neighbours_tied(l, entries, &rings)?;
    Some(first_of_all(entries, &rings, ties))
}

/// The ties between the rings of all neighbouring places, where these can all hold.
fn neighbours_tied(l: u8, entries: &[Entry], rings: &Rings) -> Option<Ties> {
    let tails = 4u32.pow(u32::from(l) - 1);
    let overlap = |a: usize, b: usize| entries[a].word % tails == entries[b].word / 4;
    let mut ties = Ties::of_none(rings.count);
    for pair in rings.stands.windows(2) {
        let (left, right) = (pair[0], pair[1]);
        let allowed = SIDES_OF_TWO.map(|(a, b)| overlap(left.sides[a], right.sides[b]));
        if !is_tied(&mut ties, left.ring, right.ring, allowed) {
            return None;
        }
    }
    Some(ties)
}

/// Ties two rings by all that their allowed sides have in common, and says whether this can hold.
///
/// To overlap is to have equal letters, so that of four pairs of sides all are
/// allowed, or none, or one, or two. What they have in common tells them from
/// the others: the side of one ring, or of each, or the turn between the two.
/// Where both are one ring, its turn to itself is 0, and no other can hold.
fn is_tied(ties: &mut Ties, left: usize, right: usize, allowed: [bool; 4]) -> bool {
    let all = SIDES_OF_TWO.into_iter().zip(allowed);
    let allowed = all.filter(|(_, allowed)| *allowed).map(|(sides, _)| sides);
    let common = |turn: fn((Side, Side)) -> Side| {
        let mut turns = allowed.clone().map(turn);
        let first = turns.next()?;
        turns.all(|turn| turn == first).then_some(first)
    };
    let in_common = [
        (SETTLED, left, common(|(a, _)| a)),
        (SETTLED, right, common(|(_, b)| b)),
        (left, right, common(|(a, b)| a ^ b)),
    ];
    let mut in_common = in_common.into_iter();
    allowed.clone().next().is_some()
        && in_common.all(|(from, to, turn)| turn.is_none_or(|turn| ties.can_tie(from, to, turn)))
}

/// The alphabetically first build, and the choices, of rings whose ties all hold.
fn first_of_all(entries: &[Entry], rings: &Rings, mut ties: Ties) -> Builds {
    // The side of the ring that leads each class, once it is known.
    let mut known: Vec<Option<Side>> = vec![None; rings.count];
    let (leader, turn) = ties.leader(SETTLED);
    known[leader] = Some(turn);
    let mut choices = 0;
    for stand in &rings.stands {
        let [word, other] = stand.sides.map(|i| entries[i].word);
        let (leader, turn) = ties.leader(stand.ring);
        // A class is turned by the first place where its two ways differ.
        if word != other && known[leader].is_none() {
            known[leader] = Some(Side::from(other < word) ^ turn);
            choices += 1;
        }
    }
    let word_at = |stand: &Stand| {
        let (leader, turn) = ties.leader(stand.ring);
        // Where the two ways never differ, either will do.
        let side = known[leader].unwrap_or(0) ^ turn;
        entries[stand.sides[side]].word
    };
    Builds {
        first: rings.stands.iter().map(word_at).collect(),
        choices,
    }
}
