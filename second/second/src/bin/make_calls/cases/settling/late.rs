//! Cards that the program `build` does not settle: its budget is too small for their walk, or every budget is.

use second::cards::Random;
use second::lists::Lists;
use second::narrow::{late, late_again, widest, without_end};
use second::report::BUDGET;
use second::spans::{sequence, words_in};
use second::verdict::Verdict;

use super::walked;
use crate::cases::Cases;

impl Cases {
    /// All cards whose walk is long.
    pub(super) fn late_walks(&mut self) {
        let (_, lists) = late();
        self.late_walk(&lists, Verdict::Sole);
        for m in [252, 504] {
            self.late_walk(&late_again(m), Verdict::Sole);
        }
        for m in [120, 252, 504] {
            let lists = self.drawn_late(|random| without_end(random, 2, m));
            self.late_walk(&lists, Verdict::None);
            let lists = self.drawn_late(|random| spoiled(random, m));
            self.late_walk(&lists, Verdict::None);
        }
    }

    /// Records lists and their card, which must have this verdict, and which the program must not settle.
    fn late_walk(&mut self, lists: &Lists, verdict: Verdict) {
        assert!(is_late(lists), "the walk of {lists:?}");
        self.settles_both(lists, verdict);
    }

    /// Draws lists until the program does not settle them.
    fn drawn_late(&mut self, draw: impl Fn(&mut Random) -> Lists) -> Lists {
        loop {
            let lists = draw(&mut self.random);
            if is_late(&lists) {
                return lists;
            }
        }
    }
}

/// Says whether the program `build` does not settle these lists.
fn is_late(lists: &Lists) -> bool {
    walked(lists, BUDGET).verdict == Verdict::Unsettled
}

/// Lists of m words, of which one in the last quarter is of Ts alone and fits nowhere.
fn spoiled(random: &mut Random, m: usize) -> Lists {
    let mut words = words_in(&sequence(random, 2, m, 2), 2);
    words[random.between(m - m / 4, m - 1)] = 15;
    widest(random, 2, &words)
}
