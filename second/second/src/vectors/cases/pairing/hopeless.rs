//! Pair cards that have no build, for one reason each.

use crate::entry::Stored;
use crate::lists::Lists;
use crate::numbers::{NO_PLACE, PAIR};
use crate::pair_lists::{at_odds, beside_a_ring, either, in_steps, pin, with_build, with_choices};
use crate::spans::{sequence, words_in};
use crate::vectors::cases::Cases;
use crate::verdict::Verdict;

impl Cases {
    /// All cards without a build.
    pub(super) fn hopeless_pairs(&mut self) {
        self.places_without_a_candidate();
        self.two_alone_at_one_place();
        self.more_entries_than_places();
        self.rings_at_odds();
        self.rings_without_a_way();
        self.choices_made_twice();
        self.no_way_beside_a_ring();
    }

    /// No entry may stand at one of the places.
    fn places_without_a_candidate(&mut self) {
        for m in [2, 3, 9, 20, 63, 504] {
            for _ in 0..4 {
                let hole = self.random.below(m);
                let away = (hole + self.random.between(1, m - 1)) % m;
                let mut lists = with_build(&mut self.random, 2, m, 2);
                for i in 0..m {
                    let Stored { one, two, .. } = lists.get(i);
                    match [one, two].map(|place| usize::from(place) == hole) {
                        [true, _] if two == NO_PLACE => pin(&mut lists, i, away),
                        [true, _] => pin(&mut lists, i, usize::from(two)),
                        [_, true] => pin(&mut lists, i, usize::from(one)),
                        [false, false] => {}
                    }
                }
                self.judged_as(&lists, Verdict::None, &[]);
            }
        }
    }

    /// Two entries, of one word or of two, that may stand at one place alone.
    fn two_alone_at_one_place(&mut self) {
        for m in [2, 3, 8, 40, 504] {
            for place in [0, m / 2, m - 1] {
                let mut lists = with_build(&mut self.random, 3, m, 2);
                let first = self.random.below(m);
                let second = (first + self.random.between(1, m - 1)) % m;
                pin(&mut lists, first, place);
                pin(&mut lists, second, place);
                self.judged_as(&lists, Verdict::None, &[]);
            }
        }
    }

    /// One word alone, and more entries for the first places than there are of these.
    fn more_entries_than_places(&mut self) {
        for m in [2, 3, 5, 8, 63, 504] {
            for few in [1, m / 2, m - 1] {
                let mut lists = Lists::empty(usize::from(PAIR), 4);
                for i in 0..m {
                    let among = if i <= few { few } else { m };
                    let (one, two) = either(i % among, self.random.below(among));
                    lists.push(Stored { word: 0, one, two });
                }
                self.judged_as(&lists, Verdict::None, &[]);
            }
        }
    }

    /// Rings whose ties cannot all hold, though any two neighbours can do.
    fn rings_at_odds(&mut self) {
        for m in [4, 6, 8, 12, 64, 252, 504] {
            self.judged_in_two_orders(at_odds(m), Verdict::None, &[]);
        }
    }

    /// One ring through all places, with a word that overlaps no other.
    fn rings_without_a_way(&mut self) {
        for (l, m) in [(2, 3), (2, 8), (3, 12), (5, 63), (2, 200), (3, 504)] {
            let mut words = words_in(&sequence(&mut self.random, l, m, 3), l);
            words[self.random.below(m)] = (1 << (2 * l)) - 1;
            for step in [1, m / 2] {
                let lists = in_steps(l, &words, step);
                self.judged_in_two_orders(lists, Verdict::None, &[]);
            }
        }
    }

    /// One choice is made by two entries, one way by the first and the other way by the last.
    fn choices_made_twice(&mut self) {
        for (l, half) in [(2, 2), (3, 4), (2, 6), (4, 31), (2, 126), (5, 252)] {
            let mut lists = with_choices(&mut self.random, l, 2 * half, half);
            pin(&mut lists, 0, 0);
            pin(&mut lists, 2 * half - 1, half - 1);
            self.judged_in_two_orders(lists.clone(), Verdict::None, &[]);
            // The same with other choices before and after it.
            let mut longer = with_choices(&mut self.random, l, (6 * half).min(504), half);
            if longer.words.len() >= 4 * half {
                pin(&mut longer, 2 * half, 2 * half);
                pin(&mut longer, 4 * half - 1, 3 * half - 1);
                self.judged_in_two_orders(longer, Verdict::None, &[]);
            }
        }
    }

    /// A pair of words beside a long ring that fits neither way.
    fn no_way_beside_a_ring(&mut self) {
        for (l, m) in [(2, 6), (2, 12), (3, 63), (2, 252), (2, 504), (4, 504)] {
            let mut lists = beside_a_ring(l, m, [0, 1]);
            let group = self.random.below(m / (l + 1)) * (l + 1);
            lists.words[group + 1] = (1 << (2 * l)) - 1;
            self.judged_in_two_orders(lists, Verdict::None, &[]);
        }
    }
}
