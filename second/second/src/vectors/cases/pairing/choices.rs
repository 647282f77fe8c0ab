//! Pair cards with choices that are free of each other, from one to many.

use crate::pair_lists::{pin, with_choices};
use crate::vectors::cases::Cases;
use crate::verdict::Verdict;

impl Cases {
    /// Choices of all sizes; then some of them are made by the place of one entry.
    pub(super) fn choices(&mut self) {
        for (l, m, half) in [
            (2, 4, 2),
            (2, 8, 2),
            (3, 12, 3),
            (2, 12, 3),
            (2, 13, 4),
            (3, 63, 3),
            (4, 126, 9),
            (6, 126, 63),
            (2, 252, 2),
            (12, 252, 30),
            (2, 504, 2),
            (3, 504, 3),
            (12, 504, 12),
            (2, 503, 40),
            (5, 504, 252),
        ] {
            let free = with_choices(&mut self.random, l, m, half);
            let build = free.words.clone();
            self.judged_in_two_orders(free, Verdict::Several, &build);
            for every in [1, 2, 5] {
                self.made_choices((l, m, half), every);
            }
        }
    }

    /// Records a card with choices, of which one in so many is made on average, either way.
    fn made_choices(&mut self, (l, m, half): (usize, usize, usize), every: usize) {
        let mut lists = with_choices(&mut self.random, l, m, half);
        let mut build = lists.words.clone();
        let both = 2 * half;
        let mut free = false;
        for (k, words) in build.chunks_exact_mut(both).enumerate() {
            if !self.random.once_in(every) {
                free = true;
                continue;
            }
            // One entry of the choice is left one of its places.
            let start = both * k;
            let offset = self.random.below(both);
            if self.random.once_in(2) {
                pin(&mut lists, start + offset, start + offset);
            } else {
                pin(&mut lists, start + offset, start + (offset + half) % both);
                words.rotate_left(half);
            }
        }
        let verdict = match free {
            true => Verdict::Several,
            false => Verdict::Sole,
        };
        self.judged_in_two_orders(lists, verdict, &build);
    }
}
