//! Span cards that have no build, for one reason each.

use crate::entry::Stored;
use crate::lists::Lists;
use crate::numbers::SPAN;
use crate::spans::{around, sequence, shuffle, with_build, words_in};
use crate::vectors::cases::Cases;
use crate::verdict::{Found, Verdict};

/// The most placements that such a card is walked for.
const MOST: u32 = 5000;

impl Cases {
    /// All cards without a build.
    pub(super) fn hopeless_walks(&mut self) {
        self.places_that_no_span_holds();
        self.two_due_at_one_place();
        self.too_many_in_one_span();
        self.words_that_do_not_overlap();
        self.late_ends();
    }

    /// Every span ends before one place, or begins after it.
    fn places_that_no_span_holds(&mut self) {
        for m in [2, 3, 9, 20] {
            for _ in 0..4 {
                let hole = self.random.below(m) as u16;
                let mut lists = with_build(&mut self.random, 2, m, 2, 6);
                for i in 0..m {
                    let Stored { word, one, two } = lists.get(i);
                    let (one, two) = match (one <= hole, two >= hole) {
                        (true, true) if hole > one => (one, hole - 1),
                        (true, true) if two > hole => (hole + 1, two),
                        (true, true) if hole > 0 => (hole - 1, hole - 1),
                        (true, true) => (hole + 1, hole + 1),
                        _ => (one, two),
                    };
                    lists.put(i, Stored { word, one, two });
                }
                self.without_build(&lists);
            }
        }
    }

    /// Two entries, of one word or of two, that may stand at one place alone.
    fn two_due_at_one_place(&mut self) {
        for m in [2, 3, 8, 40] {
            for place in [0, m / 2, m - 1] {
                let mut lists = with_build(&mut self.random, 3, m, 2, 5);
                let first = self.random.below(m);
                let second = (first + self.random.between(1, m - 1)) % m;
                for i in [first, second] {
                    (lists.ones[i], lists.twos[i]) = (place as u16, place as u16);
                }
                self.without_build(&lists);
            }
        }
        let mut flat = Lists::empty(usize::from(SPAN), 2);
        for m in 2..=12 {
            while flat.words.len() < m {
                let (word, one, two) = (0, 0, 0);
                flat.push(Stored { word, one, two });
            }
            self.found_as(&flat, 0, &Found::new(Verdict::None, 0, &[]));
        }
    }

    /// More entries of one word than their span has places.
    fn too_many_in_one_span(&mut self) {
        for width in 1..=8 {
            let mut lists = Lists::empty(usize::from(SPAN), 4);
            let (word, one) = (255, 0);
            for _ in 0..width + 1 {
                let two = width - 1;
                lists.push(Stored { word, one, two });
            }
            // All but the last place take one of them, and at that place two are due.
            let placements = u32::from(width) - 1;
            let none = Found::new(Verdict::None, placements, &[]);
            self.at_its_own_count(&lists, &none);
        }
    }

    /// One word of the sequence is another, which overlaps none.
    fn words_that_do_not_overlap(&mut self) {
        for l in [2, 3, 6, 12] {
            for m in [2, 5, 12] {
                let mut words = words_in(&sequence(&mut self.random, l, m, 3), l);
                words[self.random.below(m)] = (1 << (2 * l)) - 1;
                let mut lists = around(&mut self.random, l, &words, 1, 4);
                shuffle(&mut self.random, &mut lists);
                self.without_build(&lists);
            }
        }
    }

    /// The build fails only at the last places, so that every way there is walked.
    fn late_ends(&mut self) {
        for m in [6, 10, 14, 20] {
            for letters in [2, 3] {
                let mut words = words_in(&sequence(&mut self.random, 2, m, letters), 2);
                words[m - 1] = 15;
                let lists = around(&mut self.random, 2, &words, 2, 5);
                self.without_build(&lists);
            }
        }
    }

    /// Records a card that must have no build, if its walk gets so far.
    fn without_build(&mut self, lists: &Lists) {
        let verdict = self.around_its_own_count(lists, MOST);
        assert!(matches!(verdict, Verdict::None | Verdict::Unsettled));
    }
}
