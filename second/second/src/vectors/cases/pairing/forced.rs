//! Pair cards all of whose places are settled without a choice.

use crate::lists::Lists;
use crate::pair_lists::{alone, forced_down, forced_up, pin, star, stars};
use crate::spans::{sequence, words_in};
use crate::vectors::cases::Cases;
use crate::verdict::Verdict;

impl Cases {
    /// Words at their places alone, chains and stars, of words that differ and of equal words.
    pub(super) fn forced_pairs(&mut self) {
        for (l, m) in [
            (2, 1),
            (12, 1),
            (2, 2),
            (3, 3),
            (2, 8),
            (4, 63),
            (2, 64),
            (7, 200),
            (3, 504),
        ] {
            for letters in [4, 1] {
                let words = words_in(&sequence(&mut self.random, l, m, letters), l);
                for lists in self.forced(l, &words) {
                    self.judged_in_two_orders(lists, Verdict::Sole, &words);
                }
            }
        }
        self.clashes();
    }

    /// Lists of these words that leave no choice: each must stand at its own place.
    fn forced(&mut self, l: usize, words: &[u32]) -> Vec<Lists> {
        let m = words.len();
        let centre = self.random.below(m);
        let between = self.random.below(m);
        // From both ends the chain is forced to one place between them.
        let mut to_the_middle = forced_up(l, words);
        for i in between..m {
            let down = forced_down(l, &words[..=i]).get(i);
            to_the_middle.put(i, down);
        }
        pin(&mut to_the_middle, between, between);
        vec![
            alone(l, words),
            forced_up(l, words),
            forced_down(l, words),
            to_the_middle,
            star(l, words, 0),
            star(l, words, centre),
            stars(&mut self.random, l, words),
        ]
    }

    /// The same, but one word is another, which does not overlap its neighbours.
    fn clashes(&mut self) {
        for (l, m) in [(2, 3), (3, 4), (5, 9), (2, 63), (4, 200), (2, 504)] {
            let words = words_in(&sequence(&mut self.random, l, m, 3), l);
            for mut lists in self.forced(l, &words) {
                // No other word ends in T, and none begins with it.
                let at = self.random.below(m);
                lists.words[at] = (1 << (2 * l)) - 1;
                self.judged_in_two_orders(lists, Verdict::None, &[]);
            }
        }
    }
}
