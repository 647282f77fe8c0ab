//! The accident: every word is given the window of the word before it.

use crate::entry::Stored;
use crate::lists::Lists;
use crate::numbers::SPAN;
use crate::spans::{shuffle, words_in};
use crate::vectors::cases::Cases;
use crate::verdict::{Found, Verdict};

/// The most placements that such a card is walked for.
const MOST: u32 = 5000;

impl Cases {
    /// Sequences that go round, so that both the card and the accident have one build each.
    pub(super) fn accidents(&mut self) {
        for (l, m) in [(2, 4), (2, 7), (3, 9), (4, 30), (6, 60), (8, 120), (12, 40)] {
            // Short words in wide windows have several builds.
            for wide in 0..l.min(4) {
                self.accident(l, m, wide);
            }
        }
        self.accident(12, 504, 3);
    }

    /// Draws a card until it and its accident are both Sole, and records the two.
    fn accident(&mut self, l: usize, m: usize, wide: usize) {
        for _draw in 0..2000 {
            let words = self.round(l, m);
            let mut moved = words.clone();
            moved.rotate_left(1);
            let card = windows(&words, l, wide);
            let accident = windows(&moved, l, wide);
            if words != moved && is_sole(&card, &words) && is_sole(&accident, &moved) {
                self.in_any_order(card, &words);
                self.in_any_order(accident, &moved);
                return;
            }
        }
        panic!("no accident with l {l}, m {m} and {wide} places on both sides");
    }

    /// The m words of a sequence that goes round: the last word overlaps the first.
    fn round(&mut self, l: usize, m: usize) -> Vec<u32> {
        let letters: Vec<u32> = (0..m).map(|_| self.random.below(4) as u32).collect();
        let round: Vec<u32> = letters.iter().cycle().take(m + l - 1).copied().collect();
        words_in(&round, l)
    }

    /// Records a card that is Sole, with its entries in random order.
    fn in_any_order(&mut self, mut lists: Lists, build: &[u32]) {
        shuffle(&mut self.random, &mut lists);
        let placements = lists.find(MOST).placements;
        let sole = Found::new(Verdict::Sole, placements, build);
        self.at_its_own_count(&lists, &sole);
    }
}

/// The words in turn, each in a window of up to this many places on both sides of its own.
fn windows(words: &[u32], l: usize, wide: usize) -> Lists {
    let mut lists = Lists::empty(usize::from(SPAN), l);
    for (place, &word) in words.iter().enumerate() {
        let one = place.saturating_sub(wide) as u16;
        let two = (place + wide).min(words.len() - 1) as u16;
        lists.push(Stored { word, one, two });
    }
    lists
}

/// Says whether these words are found to be the one build.
fn is_sole(lists: &Lists, build: &[u32]) -> bool {
    let found = lists.find(MOST);
    found.verdict == Verdict::Sole && found.words == build
}
