//! Long span cards, up to the full 504 entries.

use crate::lists::Lists;
use crate::spans::{around, sequence, shuffle, widest, with_build, words_in};
use crate::vectors::cases::Cases;
use crate::verdict::{Found, Verdict};

/// The most entries of a card.
const FULL: usize = 504;

impl Cases {
    /// All long cards.
    pub(super) fn full_walks(&mut self) {
        self.spans_one_wide();
        self.one_word_alone();
        self.narrow_spans();
        self.wide_spans();
    }

    /// Each entry has its own place alone: as many placements as entries.
    fn spans_one_wide(&mut self) {
        for (l, m) in [(2, 63), (7, 64), (4, 200), (3, FULL), (12, FULL)] {
            let words = words_in(&sequence(&mut self.random, l, m, 4), l);
            let mut lists = around(&mut self.random, l, &words, 1, 1);
            shuffle(&mut self.random, &mut lists);
            self.sole(&lists, m, &words);
        }
    }

    /// One word alone, in spans of any width that lie around each place: never a choice.
    fn one_word_alone(&mut self) {
        for (l, m, wide) in [(2, 100, 8), (12, 100, 8), (3, FULL, 8), (2, FULL, 2)] {
            let word = self.random.pick(&[0, (1 << (2 * l)) - 1]);
            let words = vec![word; m];
            let mut lists = around(&mut self.random, l, &words, 1, wide);
            shuffle(&mut self.random, &mut lists);
            self.sole(&lists, m, &words);
        }
    }

    /// Spans up to three wide.
    fn narrow_spans(&mut self) {
        for (l, m) in [(2, 63), (3, 63), (2, 127), (4, 250), (2, FULL), (5, FULL)] {
            let lists = with_build(&mut self.random, l, m, 4, 3);
            let verdict = self.around_its_own_count(&lists, 20_000);
            assert_ne!(verdict, Verdict::None, "lists that have a build");
        }
    }

    /// Every span eight wide: short words have several builds, and long ones tell places apart.
    fn wide_spans(&mut self) {
        for (l, m) in [
            (5, 63),
            (6, 127),
            (8, 250),
            (2, FULL),
            (3, FULL),
            (4, FULL),
            (6, FULL),
            (12, FULL),
        ] {
            let words = words_in(&sequence(&mut self.random, l, m, 4), l);
            let lists = widest(&mut self.random, l, &words);
            let verdict = self.around_its_own_count(&lists, 20_000);
            assert_ne!(verdict, Verdict::None, "lists that have a build");
        }
    }

    /// Records lists that must have this build alone, without a placement in vain.
    fn sole(&mut self, lists: &Lists, m: usize, build: &[u32]) {
        let sole = Found::new(Verdict::Sole, m as u32, build);
        self.at_its_own_count(lists, &sole);
    }
}
