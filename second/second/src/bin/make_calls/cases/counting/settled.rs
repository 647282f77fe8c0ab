//! Cards all of whose places are settled without a choice: one build, or none.

use second::count::Count::{self, Power};
use second::entry::Stored;
use second::lists::Lists;
use second::numbers::{NO_PLACE, PAIR};
use second::pair_lists::{alone, either, forced_down, forced_up, pin, star, stars, with_build};
use second::spans::{sequence, words_in};

use crate::cases::Cases;

impl Cases {
    /// All cards without a choice.
    pub(super) fn settled(&mut self) {
        self.one_entry();
        for (l, m) in [(2, 2), (3, 3), (2, 8), (4, 63), (7, 64)] {
            for letters in [4, 1] {
                let words = words_in(&sequence(&mut self.random, l, m, letters), l);
                for lists in self.forced(l, &words) {
                    self.counted_as(&lists, Power(0));
                }
            }
        }
        let words = words_in(&sequence(&mut self.random, 3, 504, 4), 3);
        self.counted_both(&forced_up(3, &words), Power(0));
        self.counted_as(&star(3, &words, 251), Power(0));
        self.clashes();
        self.places_without_a_candidate();
        self.more_entries_than_places();
    }

    /// Lists of these words that leave no choice: each must stand at its own place.
    fn forced(&mut self, l: usize, words: &[u32]) -> [Lists; 5] {
        let centre = self.random.below(words.len());
        [
            alone(l, words),
            forced_up(l, words),
            forced_down(l, words),
            star(l, words, centre),
            stars(&mut self.random, l, words),
        ]
    }

    /// One entry, which has one build with words of every length.
    fn one_entry(&mut self) {
        self.counted_both(&alone(12, &[0]), Power(0));
        for l in 2..=12 {
            let word = self.random.below(1 << (2 * l)) as u32;
            self.counted_as(&alone(l, &[word]), Power(0));
        }
    }

    /// One word is another, which does not overlap its neighbours.
    fn clashes(&mut self) {
        for (l, m) in [(2, 3), (3, 4), (5, 9), (2, 63)] {
            let words = words_in(&sequence(&mut self.random, l, m, 3), l);
            for mut lists in self.forced(l, &words) {
                // No other word ends in T, and none begins with it.
                let at = self.random.below(m);
                lists.words[at] = (1 << (2 * l)) - 1;
                self.counted_as(&lists, Count::None);
            }
        }
    }

    /// No entry may stand at one of the places.
    fn places_without_a_candidate(&mut self) {
        for m in [2, 3, 9, 20, 63, 504] {
            let hole = self.random.below(m);
            let away = (hole + self.random.between(1, m - 1)) % m;
            let mut lists = with_build(&mut self.random, 2, m, 2);
            for i in 0..m {
                let Stored { one, two, .. } = lists.get(i);
                match [one, two].map(|place| usize::from(place) == hole) {
                    [true, _] if two == NO_PLACE => pin(&mut lists, i, away),
                    [true, _] => pin(&mut lists, i, usize::from(two)),
                    [_, true] => pin(&mut lists, i, usize::from(one)),
                    [false, false] => {}
                }
            }
            self.counted_as(&lists, Count::None);
        }
    }

    /// One word alone, and more entries for the first places than there are of these.
    fn more_entries_than_places(&mut self) {
        for m in [2, 3, 5, 8, 63] {
            for few in [1, m / 2, m - 1] {
                let mut lists = Lists::empty(usize::from(PAIR), 4);
                for i in 0..m {
                    let among = if i <= few { few } else { m };
                    let (one, two) = either(i % among, self.random.below(among));
                    lists.push(Stored { word: 0, one, two });
                }
                self.counted_as(&lists, Count::None);
            }
        }
    }
}
