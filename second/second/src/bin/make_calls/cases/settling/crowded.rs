//! Places with as many spans over them as a build allows, and with one more.

use second::entry::Stored;
use second::lists::Lists;
use second::narrow::{crowded, most_over, overcrowded, WIDE};
use second::numbers::{MOST_OVER, SPAN};
use second::verdict::Verdict;

use crate::cases::Cases;

impl Cases {
    /// All cards with crowded places.
    pub(super) fn crowded_places(&mut self) {
        for (l, m) in [(2, 7), (3, 8), (2, 14), (2, 21), (4, 40), (2, 63)] {
            for letters in [1, 2, 4] {
                let lists = crowded(&mut self.random, l, m, letters);
                assert_eq!(most_over(&lists), MOST_OVER);
                let found = self.settles(&lists);
                assert_ne!(found.verdict, Verdict::None, "lists that have a build");
                let lists = overcrowded(&mut self.random, l, m + 1, letters);
                self.hopeless_crowd(&lists);
            }
        }
        let lists = crowded(&mut self.random, 3, 504, 2);
        let found = self.settles_card(&lists);
        assert_ne!(found.verdict, Verdict::None, "lists that have a build");
        let lists = overcrowded(&mut self.random, 3, 504, 2);
        self.hopeless_crowd(&lists);
        for m in [8, 20, 100] {
            let lists = self.one_crowd(m);
            self.hopeless_crowd(&lists);
        }
    }

    /// Records lists with more spans over a place than a build allows.
    fn hopeless_crowd(&mut self, lists: &Lists) {
        assert!(most_over(lists) > MOST_OVER);
        let found = self.settles(lists);
        assert_eq!(found.verdict, Verdict::None, "a place that is too crowded");
    }

    /// Lists whose every entry has the same span, with words that are drawn.
    fn one_crowd(&mut self, m: usize) -> Lists {
        let one = self.random.below(m - WIDE) as u16;
        let two = one + WIDE as u16 - 1;
        let mut lists = Lists::empty(usize::from(SPAN), 2);
        for _ in 0..m {
            let word = self.random.below(16) as u32;
            lists.push(Stored { word, one, two });
        }
        lists
    }
}
