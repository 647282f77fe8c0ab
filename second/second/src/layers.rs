//! The verdict on cards whose spans are narrow, by the layered method of document 000, section 7.
//!
//! A layer has the states in which the words before a place can leave what
//! comes after it: the last letters, and the entries over the place that are
//! unused. Each layer is made from the one before it, and nothing is taken
//! back. An entry that is unused at the last place of its span must stand
//! there, so that none is ever left behind.
//!
//! Words that stand before a place may be given to equal entries in several
//! ways. Of equal words always the entry that ends first is used, ties by lower
//! index: whatever can be put after another choice can be put after this one.
//! So each row of words leads to one state, and what comes together in a state
//! are different rows. It is enough to know the first of them, and whether
//! there is another.
//!
//! Document 000 numbers the entries by their first places, modulo seven. Spans
//! that differ in width may have two entries over one place with the same
//! number then, so that `seats` gives the numbers out in another way.

mod seats;
#[cfg(test)]
mod tests;

use std::collections::HashMap;

use crate::entry::Entry;
use crate::verdict::{Found, Verdict};
use seats::{Candidate, Seats, Set};

/// What is found of the builds of a span card whose words have l letters and whose spans are narrow; there are no placements.
pub fn layers(l: u8, entries: &[Entry]) -> Found {
    // More entries over a place than there are seats leave no build.
    match Seats::new(entries) {
        None => Found::new(Verdict::None, 0, &[]),
        Some(seats) => Layers::new(l, &seats).found(),
    }
}

/// What the words before a place leave: the last letters, where there are any, and the unused entries over the place.
type State = (Option<u32>, Set);

/// The rows of words that lead to a state.
struct Rows {
    state: State,
    /// The last word of the alphabetically first row, and where the rows without that word stand in the layer before.
    first: (u32, usize),
    /// Whether there is another row.
    are_more: bool,
}

/// The layers of all places so far; in each the states stand in the order of their first rows.
struct Layers<'a> {
    /// 4^(l−1): what the last l−1 letters of a word are below.
    tails: u32,
    seats: &'a Seats,
    all: Vec<Vec<Rows>>,
}

impl Layers<'_> {
    /// All layers of these entries: one for each place, and one after the last.
    fn new(l: u8, seats: &Seats) -> Layers<'_> {
        let nothing = Rows {
            state: (None, seats.beginning(0)),
            first: (0, 0),
            are_more: false,
        };
        let mut layers = Layers {
            tails: 4u32.pow(u32::from(l) - 1),
            seats,
            all: vec![vec![nothing]],
        };
        for place in 0..seats.places() {
            let next = layers.after(place);
            layers.all.push(next);
        }
        layers
    }

    /// The layer after that of this place, which is the last so far.
    ///
    /// Rows are made longer in their alphabetical order, so that the first that
    /// leads to a state is the first of all that do.
    fn after(&self, place: usize) -> Vec<Rows> {
        let mut next: Vec<Rows> = Vec::new();
        let mut known: HashMap<State, usize> = HashMap::new();
        for (before, rows) in self.all[place].iter().enumerate() {
            for candidate in self.tried(place, rows.state) {
                let state = self.state_after(place, rows.state, candidate);
                let at = *known.entry(state).or_insert(next.len());
                match next.get_mut(at) {
                    Some(others) => others.are_more = true,
                    None => next.push(Rows {
                        state,
                        first: (candidate.word, before),
                        are_more: rows.are_more,
                    }),
                }
            }
        }
        next
    }

    /// The unused entries that may stand at this place after the last letters: one for each word, in alphabetical order.
    fn tried(&self, place: usize, (tail, unused): State) -> Vec<Candidate> {
        let overlaps = |word: u32| tail.is_none_or(|tail| word / 4 == tail);
        let mut candidates = self.seats.candidates(place, unused);
        candidates.retain(|candidate| overlaps(candidate.word));
        // They stand by their words, then by their ends, then by their indices.
        candidates.sort_unstable();
        candidates.dedup_by_key(|candidate| candidate.word);
        candidates
    }

    /// The state that an entry at this place leads to.
    fn state_after(&self, place: usize, (_, unused): State, used: Candidate) -> State {
        let left = unused.without(used.seat);
        let unused = left.with(self.seats.beginning(place + 1));
        (Some(used.word % self.tails), unused)
    }

    /// What the last layer says: every row in it uses all entries.
    fn found(&self) -> Found {
        let last = &self.all[self.seats.places()];
        let builds: usize = last.iter().map(|rows| 1 + usize::from(rows.are_more)).sum();
        match builds {
            0 => Found::new(Verdict::None, 0, &[]),
            _ => Found::new(Verdict::of_count(builds), 0, &self.first_row()),
        }
    }

    /// The words of the first row of the last layer, read from its end.
    fn first_row(&self) -> Vec<u32> {
        let mut words = Vec::new();
        let mut at = 0;
        for layer in self.all[1..].iter().rev() {
            let (word, before) = layer[at].first;
            words.push(word);
            at = before;
        }
        words.reverse();
        words
    }
}
