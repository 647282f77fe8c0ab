//! Cards that are drawn: small ones, all of whose arrangements are tried, and longer ones.

use second::count::Count;
use second::entry::Stored;
use second::known_counts::any_joined;
use second::lists::Lists;
use second::numbers::PAIR;
use second::pair_lists::{any_sound_pairs, either, with_build};
use second::spans::shuffle;

use super::SMALL;
use crate::cases::Cases;

impl Cases {
    /// All cards that are drawn.
    pub(super) fn drawn(&mut self) {
        for m in 1..=SMALL {
            for letters in 1..=4 {
                let l = self.random.between(2, 3);
                let lists = any_sound_pairs(&mut self.random, l, m, letters);
                _ = self.counted(&lists);
            }
            let letters = self.random.between(2, 4);
            let lists = with_build(&mut self.random, 2, m, letters);
            let count = self.counted_card(&lists);
            assert_ne!(count, Count::None, "lists that have a build");
        }
        for _ in 0..50 {
            let lists = self.few_words();
            _ = self.counted(&lists);
            let lists = self.parts_disturbed();
            _ = self.counted(&lists);
        }
        for (l, m) in [(2, 30), (3, 63), (4, 64), (12, 100), (2, 200), (6, 504)] {
            for letters in [2, 4] {
                let lists = any_sound_pairs(&mut self.random, l, m, letters);
                _ = self.counted(&lists);
            }
        }
    }

    /// Small lists whose every place and word is drawn, of the letters A and C alone.
    fn few_words(&mut self) -> Lists {
        let m = self.random.between(2, 7);
        let mut lists = Lists::empty(usize::from(PAIR), 2);
        for _ in 0..m {
            let word = self.random.pick(&[0, 1, 1, 4, 4, 5]);
            let (one, two) = either(self.random.below(m), self.random.below(m));
            lists.push(Stored { word, one, two });
        }
        lists
    }

    /// Parts side by side, of which one entry may stand elsewhere.
    fn parts_disturbed(&mut self) -> Lists {
        let (mut lists, _) = any_joined(&mut self.random, SMALL);
        let m = lists.words.len();
        let i = self.random.below(m);
        (lists.ones[i], lists.twos[i]) = either(self.random.below(m), self.random.below(m));
        shuffle(&mut self.random, &mut lists);
        lists
    }
}
