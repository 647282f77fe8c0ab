//! The walk on span cards: the rule of the scope document, as it is worded there.
//!
//! Every entry is looked at for every place that the walk comes to. Nothing is
//! sorted or kept beforehand, so that the rule can be read off.

pub mod counted;

use crate::entry::Entry;
use crate::verdict::{Found, Verdict};

/// Walks over the entries of a span card whose words have l letters.
pub fn walk(l: u8, entries: &[Entry], budget: u32) -> Found {
    let mut walk = Walk::new(l, entries, budget);
    let (verdict, words) = match (walk.go_on(), walk.first) {
        (Err(Stop::SecondBuild), Some(first)) => (Verdict::Several, first),
        (Ok(()), Some(first)) => (Verdict::Sole, first),
        (Err(Stop::Budget), _) => (Verdict::Unsettled, Vec::new()),
        (_, None) => (Verdict::None, Vec::new()),
    };
    Found {
        verdict,
        placements: walk.placements,
        words,
    }
}

/// Why a walk ends before it has run out.
enum Stop {
    /// A second build was completed.
    SecondBuild,
    /// One more placement was called for than the budget allows.
    Budget,
}

/// A walk that is under way.
struct Walk<'a> {
    /// 4^(l−1): what the last l−1 letters of a word are below.
    tails: u32,
    entries: &'a [Entry],
    /// Whether each entry is used.
    used: Vec<bool>,
    /// The words that stand at the places so far.
    row: Vec<u32>,
    /// The words of the first build, once it is completed.
    first: Option<Vec<u32>>,
    budget: u32,
    placements: u32,
}

impl Walk<'_> {
    /// A walk that has placed nothing.
    fn new(l: u8, entries: &[Entry], budget: u32) -> Walk<'_> {
        Walk {
            tails: 4u32.pow(u32::from(l) - 1),
            used: vec![false; entries.len()],
            row: Vec::with_capacity(entries.len()),
            entries,
            first: None,
            budget,
            placements: 0,
        }
    }

    /// Walks over the entries that are left, from the first place where no word stands.
    fn go_on(&mut self) -> Result<(), Stop> {
        if self.row.len() == self.entries.len() {
            return self.complete();
        }
        for entry in self.tried() {
            self.place(entry)?;
            self.go_on()?;
            self.take_back(entry);
        }
        Ok(())
    }

    /// Keeps the row as the first build, or stops where there is one already.
    fn complete(&mut self) -> Result<(), Stop> {
        if self.first.is_some() {
            return Err(Stop::SecondBuild);
        }
        self.first = Some(self.row.clone());
        Ok(())
    }

    /// Places an entry and counts the placement, if the budget allows it.
    fn place(&mut self, entry: usize) -> Result<(), Stop> {
        if self.placements == self.budget {
            return Err(Stop::Budget);
        }
        self.placements += 1;
        self.put(entry);
        Ok(())
    }

    /// Puts an entry at the next place.
    fn put(&mut self, entry: usize) {
        self.used[entry] = true;
        self.row.push(self.entries[entry].word);
    }

    /// Takes back the entry that was placed last.
    fn take_back(&mut self, entry: usize) {
        self.row.pop();
        self.used[entry] = false;
    }

    /// The entries that are tried at the next place: one for each word, in alphabetical order.
    fn tried(&self) -> Vec<usize> {
        let candidates = self.candidates();
        let ends_first = |&entry: &usize| {
            let mut equals = candidates
                .iter()
                .filter(|&&other| self.entries[other].word == self.entries[entry].word);
            equals.all(|&other| self.ending(entry) <= self.ending(other))
        };
        let mut tried: Vec<usize> = candidates.iter().copied().filter(ends_first).collect();
        tried.sort_unstable_by_key(|&entry| self.entries[entry].word);
        tried
    }

    /// Where an entry ends, and its index, by which equal words are told apart.
    fn ending(&self, entry: usize) -> (usize, usize) {
        (self.entries[entry].places.last(), entry)
    }

    /// The unused entries that may stand at the next place.
    fn candidates(&self) -> Vec<usize> {
        let place = self.row.len();
        let due: Vec<usize> = self
            .unused()
            .filter(|&entry| self.entries[entry].places.last() <= place)
            .collect();
        self.unused()
            .filter(|&entry| self.entries[entry].places.holds(place) && self.overlaps(entry))
            .filter(|&entry| due.iter().all(|&other| other == entry))
            .collect()
    }

    /// The entries that are not used.
    fn unused(&self) -> impl Iterator<Item = usize> + '_ {
        (0..self.entries.len()).filter(|&entry| !self.used[entry])
    }

    /// Says whether an entry's word begins with the last l−1 letters of the last word.
    fn overlaps(&self, entry: usize) -> bool {
        match self.row.last() {
            None => true,
            Some(last) => last % self.tails == self.entries[entry].word / 4,
        }
    }
}

#[cfg(test)]
mod placements;
#[cfg(test)]
mod tests;
