//! The builds of small cards, by what a build is alone: every arrangement is tried.

use std::collections::BTreeSet;

use crate::entry::Entry;
use crate::lists::Lists;

/// All builds of sound lists, each as its words.
pub fn builds(lists: &Lists) -> BTreeSet<Vec<u32>> {
    let (_, entries) = lists.admitted().expect("lists that are sound");
    let mut search = Search {
        l: lists.l,
        entries,
        row: Vec::new(),
        builds: BTreeSet::new(),
    };
    search.go_on();
    search.builds
}

/// A search through the orders of the entries.
struct Search {
    l: usize,
    entries: Vec<Entry>,
    /// The entries that stand at the places so far.
    row: Vec<usize>,
    /// The words of the builds so far.
    builds: BTreeSet<Vec<u32>>,
}

impl Search {
    /// Tries every entry that is left at the first place where none stands.
    fn go_on(&mut self) {
        if self.row.len() == self.entries.len() {
            let words = self.row.iter().map(|&i| self.entries[i].word);
            self.builds.insert(words.collect());
        }
        for i in 0..self.entries.len() {
            if !self.row.contains(&i) && self.may_follow(i) {
                self.row.push(i);
                self.go_on();
                self.row.pop();
            }
        }
    }

    /// Says whether an entry may stand at the next place, after the word that stands before it.
    fn may_follow(&self, i: usize) -> bool {
        let entry = self.entries[i];
        let overlaps = match self.row.last() {
            None => true,
            Some(&last) => {
                let tail = self.letters(self.entries[last].word).skip(1);
                tail.eq(self.letters(entry.word).take(self.l - 1))
            }
        };
        overlaps && entry.places.holds(self.row.len())
    }

    /// The letters of a word, from the first on.
    fn letters(&self, word: u32) -> impl Iterator<Item = u32> {
        (0..self.l).rev().map(move |k| word >> (2 * k) & 3)
    }
}
