//! Pair cards that are left with rings.

use crate::pair_lists::{
    beside_a_ring, by_turns, in_rings, in_steps, in_two_builds, mirrored, pin, round_words,
    scattered, swapped,
};
use crate::spans::{sequence, words_in};
use crate::vectors::cases::Cases;
use crate::verdict::Verdict;

impl Cases {
    /// All cards with rings.
    pub(super) fn ringed_pairs(&mut self) {
        self.one_long_ring();
        self.rings_of_equal_words();
        self.mirrored_rings();
        self.rings_that_are_drawn();
        self.beside_long_rings();
    }

    /// One ring through all places, of a sequence that goes round: two builds, or one.
    fn one_long_ring(&mut self) {
        for (l, m) in [
            (3, 5),
            (3, 12),
            (4, 63),
            (6, 64),
            (8, 200),
            (5, 503),
            (7, 504),
        ] {
            // Not all words are equal, so that the two ways round differ.
            let mut words = round_words(&mut self.random, l, m, 4);
            while words[0] == words[1] {
                words = round_words(&mut self.random, l, m, 4);
            }
            let mut moved = words.clone();
            moved.rotate_right(1);
            let first = words.clone().min(moved.clone());
            let ring = in_steps(l, &words, 1);
            self.judged_in_two_orders(ring.clone(), Verdict::Several, &first);
            let i = self.random.below(m);
            let mut kept = ring.clone();
            pin(&mut kept, i, i);
            self.judged_in_two_orders(kept, Verdict::Sole, &words);
            let mut turned = ring.clone();
            pin(&mut turned, i, (i + 1) % m);
            self.judged_in_two_orders(turned, Verdict::Sole, &moved);
        }
    }

    /// Rings of equal words are no choice.
    fn rings_of_equal_words(&mut self) {
        for (l, m) in [(2, 2), (3, 7), (2, 12), (12, 63), (2, 504)] {
            let word = self.random.pick(&[0, (1 << (2 * l)) - 1]);
            let words = vec![word; m];
            for step in [1, 2, 3] {
                let lists = in_steps(l, &words, step);
                self.judged_in_two_orders(lists, Verdict::Sole, &words);
            }
            for _ in 0..2 {
                let rings = in_rings(&mut self.random, l, &words);
                self.judged_as(&rings, Verdict::Sole, &words);
                let scattered = scattered(&mut self.random, l, &words);
                self.judged_as(&scattered, Verdict::Sole, &words);
            }
        }
    }

    /// Rings that tie each other from both ends to the middle.
    fn mirrored_rings(&mut self) {
        for (l, m) in [
            (2, 2),
            (2, 6),
            (3, 8),
            (2, 64),
            (5, 200),
            (2, 504),
            (4, 504),
        ] {
            let words = by_turns(l, m);
            let other: Vec<u32> = words.iter().rev().copied().collect();
            let free = mirrored(l, &words);
            self.judged_in_two_orders(free.clone(), Verdict::Several, &words);
            for (i, place, build) in [(0, 0, &words), (0, m - 1, &other), (m / 2, m / 2, &words)] {
                let mut pinned = free.clone();
                pin(&mut pinned, i, place);
                self.judged_in_two_orders(pinned, Verdict::Sole, build);
            }
        }
    }

    /// Rings that are drawn, for words that differ little and much.
    fn rings_that_are_drawn(&mut self) {
        for (l, m) in [(2, 20), (2, 63), (3, 63), (2, 200), (3, 504), (6, 504)] {
            for letters in [2, 4] {
                let words = words_in(&sequence(&mut self.random, l, m, letters), l);
                for lists in [
                    in_rings(&mut self.random, l, &words),
                    swapped(&mut self.random, l, &words),
                    in_two_builds(&mut self.random, l, &words),
                    scattered(&mut self.random, l, &words),
                ] {
                    let verdict = self.judged(&lists);
                    assert_ne!(verdict, Verdict::None, "lists that have a build");
                }
            }
        }
    }

    /// Pairs of words beside one long ring: what does not overlap it is on every place of it.
    fn beside_long_rings(&mut self) {
        for (l, m) in [
            (2, 3),
            (2, 9),
            (3, 12),
            (2, 63),
            (4, 126),
            (3, 252),
            (2, 504),
            (5, 504),
        ] {
            for letters in [[0, 1], [1, 0], [3, 2]] {
                let lists = beside_a_ring(l, m, letters);
                let build = lists.words.clone();
                self.judged_in_two_orders(lists, Verdict::Sole, &build);
            }
        }
    }
}
