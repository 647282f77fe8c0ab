//! Cards that are drawn, from 1 to 504 entries, and cards of equal words.

use second::narrow::{any_widest, few_words, widest, WIDE};
use second::spans::{around, disturbed, sequence, with_build, words_in};
use second::verdict::Verdict;

use crate::cases::Cases;

impl Cases {
    /// All cards that are drawn.
    pub(super) fn drawn_narrow(&mut self) {
        for m in 1..=60 {
            self.of_so_many(m);
        }
        for _ in 0..60 {
            let lists = few_words(&mut self.random);
            _ = self.settles(&lists);
        }
        for _ in 0..40 {
            let lists = any_widest(&mut self.random);
            _ = self.settles(&lists);
        }
        for (l, m, letters) in [
            (2, 63, 2),
            (3, 64, 4),
            (2, 126, 3),
            (12, 252, 4),
            (4, 504, 4),
        ] {
            let lists = with_build(&mut self.random, l, m, letters, WIDE);
            let found = self.settles(&lists);
            assert_ne!(found.verdict, Verdict::None, "lists that have a build");
            let lists = disturbed(&mut self.random, l, m, letters, WIDE);
            _ = self.settles(&lists);
        }
    }

    /// Lists of m entries: with a build, with every span of the greatest width, and perhaps without a build; now and then a card.
    fn of_so_many(&mut self, m: usize) {
        let (l, letters) = (self.random.between(2, 4), self.random.between(2, 4));
        let wide = self.random.between(1, WIDE);
        let made = with_build(&mut self.random, l, m, letters, wide);
        let found = self.settles(&made);
        assert_ne!(found.verdict, Verdict::None, "lists that have a build");
        let words = words_in(&sequence(&mut self.random, 2, m, letters), 2);
        let wide_ones = widest(&mut self.random, 2, &words);
        let found = match m % 6 {
            0 => self.settles_card(&wide_ones),
            _ => self.settles(&wide_ones),
        };
        assert_ne!(found.verdict, Verdict::None, "lists that have a build");
        let perhaps = disturbed(&mut self.random, l, m, letters, wide);
        _ = match m % 6 {
            3 => self.settles_card(&perhaps),
            _ => self.settles(&perhaps),
        };
    }

    /// Equal words are no choice, whatever the spans are.
    pub(super) fn equal_words(&mut self) {
        for (l, m) in [(2, 2), (3, 4), (2, 7), (5, 9), (12, 30), (2, 63)] {
            let word = self.random.pick(&[0, (1 << (2 * l)) - 1]);
            for narrow in [1, WIDE] {
                let lists = around(&mut self.random, l, &vec![word; m], narrow, WIDE);
                self.settles_both(&lists, Verdict::Sole);
            }
        }
        let full = around(&mut self.random, 2, &[5; 504], 1, WIDE);
        self.settles_both(&full, Verdict::Sole);
        // The later an entry comes, the sooner it ends.
        for m in 2..=WIDE {
            let mut lists = around(&mut self.random, 2, &vec![0; m], m, m);
            lists.twos = (0..m as u16).rev().collect();
            self.settles_both(&lists, Verdict::Sole);
        }
    }
}
