//! Small span cards, most with many equal words.

use crate::spans::{perhaps_without, sequence, widest, with_build, words_in};
use crate::vectors::cases::Cases;
use crate::verdict::Verdict;

/// The most placements that a small card is walked for.
const MOST: u32 = 2000;

impl Cases {
    /// Words of two to four letters from few different letters.
    pub(super) fn small_walks(&mut self) {
        for l in 2..=4 {
            for m in 1..=12 {
                for letters in [1, 2, 2, 3, 4] {
                    let wide = self.random.between(2, 8);
                    let lists = with_build(&mut self.random, l, m, letters, wide);
                    let verdict = self.around_its_own_count(&lists, MOST);
                    assert_ne!(verdict, Verdict::None, "lists that have a build");
                }
                let lists = perhaps_without(&mut self.random, l, m, 2);
                _ = self.around_its_own_count(&lists, MOST);
                let words = words_in(&sequence(&mut self.random, l, m, 2), l);
                let lists = widest(&mut self.random, l, &words);
                _ = self.around_its_own_count(&lists, MOST);
            }
        }
    }

    /// Words of every other length, up to the longest.
    pub(super) fn longer_words(&mut self) {
        for l in 5..=12 {
            for m in [1, 2, 9, 30] {
                let letters = self.random.between(1, 4);
                let lists = with_build(&mut self.random, l, m, letters, 8);
                let verdict = self.around_its_own_count(&lists, MOST);
                assert_ne!(verdict, Verdict::None, "lists that have a build");
            }
            let lists = perhaps_without(&mut self.random, l, 12, 2);
            _ = self.around_its_own_count(&lists, MOST);
        }
    }
}
