//! Small pair cards, all of whose arrangements are tried, and words of every length.

use crate::pair_lists::{any_sound_pairs, perhaps_without, with_build};
use crate::vectors::cases::Cases;
use crate::verdict::Verdict;

impl Cases {
    /// Words of two and three letters from few different letters.
    pub(super) fn small_pairs(&mut self) {
        for l in 2..=3 {
            for m in 1..=8 {
                for letters in 1..=4 {
                    for _ in 0..5 {
                        let lists = with_build(&mut self.random, l, m, letters);
                        let verdict = self.judged(&lists);
                        assert_ne!(verdict, Verdict::None, "lists that have a build");
                    }
                    for _ in 0..3 {
                        let lists = perhaps_without(&mut self.random, l, m, letters);
                        _ = self.judged(&lists);
                    }
                }
            }
        }
        for _ in 0..300 {
            let m = self.random.between(4, 12);
            let letters = self.random.between(1, 4);
            let lists = any_sound_pairs(&mut self.random, 2, m, letters);
            _ = self.judged(&lists);
        }
    }

    /// Words of every length, up to the longest, on cards of one entry and on longer ones.
    pub(super) fn longer_pair_words(&mut self) {
        for l in 2..=12 {
            for m in [1, 2, 9, 30, 100] {
                let letters = self.random.between(1, 4);
                let lists = with_build(&mut self.random, l, m, letters);
                let verdict = self.judged(&lists);
                assert_ne!(verdict, Verdict::None, "lists that have a build");
            }
            for m in [5, 12, 40] {
                let lists = perhaps_without(&mut self.random, l, m, 2);
                _ = self.judged(&lists);
            }
        }
    }
}
