//! Lists that are refused in the order of their tests, before 12, before 5 for pairs and before 30.

use second::lists::{odd_numbers, Lists};
use second::narrow::WIDE;
use second::numbers::NO_PLACE;
use second::profile::Kind;
use second::spans::with_build;
use second::stored::LONGEST_OUTPUT;

use crate::cases::ladders::{spoil_lists, LISTS_FAULTS};
use crate::cases::Cases;

impl Cases {
    /// All lists that are refused.
    pub(super) fn wrong_lists(&mut self) {
        self.odd_kinds_and_ls();
        self.lengths();
        for low in 0..LISTS_FAULTS {
            for high in low..LISTS_FAULTS {
                self.wrong_together([low, high]);
            }
        }
        self.edges_of_entries();
    }

    /// Kinds and ls of every size: only 2 with an l from 2 to 12 is settled, and 1 is refused by 5 after 12.
    fn odd_kinds_and_ls(&mut self) {
        for number in odd_numbers() {
            // Places 0 and 1 of two are sound on either kind.
            let mut lists = Lists::empty(2, 2);
            lists.words = vec![self.random.below(16) as u32; 2];
            (lists.ones, lists.twos) = (vec![0; 2], vec![1; 2]);
            let sound = self.random.pick(&[1, 2]);
            for (kind, l) in [(number, 2), (sound, number)] {
                (lists.kind, lists.l) = (kind, l);
                match (kind, l) {
                    (2, 2..=12) => _ = self.settles(&lists),
                    (1, 2..=12) => self.refuses_lists(&lists, LONGEST_OUTPUT, (5, 0)),
                    (1..=2, _) => self.refuses_lists(&lists, LONGEST_OUTPUT, (6, 0)),
                    (_, _) => self.refuses_lists(&lists, 0, (5, 0)),
                }
            }
        }
    }

    /// Lists that differ in length, and as many entries as no card has.
    fn lengths(&mut self) {
        for (m, n) in [(0, 1), (5, 6)] {
            for (words, ones, twos) in [(n, m, m), (m, n, m), (m, m, n), (m, n, n)] {
                let mut lists = Lists::empty(2, 3);
                lists.resize(words, ones, twos);
                let room = self.random.pick(&[0, LONGEST_OUTPUT]);
                self.refuses_lists(&lists, room, (13, 0));
            }
        }
        let mut lists = Lists::empty(2, 3);
        lists.resize(505, 504, 505);
        self.refuses_lists(&lists, LONGEST_OUTPUT, (13, 0));
        for (kind, m) in [(1, 0), (2, 0), (2, 505)] {
            let mut lists = Lists::empty(kind, 3);
            lists.resize(m, m, m);
            if m > 0 {
                lists.words[0] = u32::MAX;
            }
            let room = self.random.pick(&[0, LONGEST_OUTPUT]);
            self.refuses_lists(&lists, room, (7, 0));
        }
    }

    /// Records lists with two faults of the ladder, or with one: narrow with room, and of any sort with too little.
    fn wrong_together(&mut self, faults: [usize; 2]) {
        let mut narrow = with_build(&mut self.random, 3, 5, 4, WIDE);
        let wanted = spoil_lists(&mut narrow, faults);
        self.refuses_lists(&narrow, 7, wanted);
        let kind = self.random.pick(&[Kind::Pair, Kind::Span]);
        let mut lists = Lists::sound(&mut self.random, kind, 3, 5);
        // On a span card this is wider than 4.
        (lists.ones[1], lists.twos[1]) = (0, 4);
        let wanted = spoil_lists(&mut lists, faults);
        let room = self.random.pick(&[0, 6, 7]);
        self.refuses_lists(&lists, room, wanted);
    }

    /// Words and places beside their limits, and the limits themselves.
    fn edges_of_entries(&mut self) {
        for l in [2, 3, 11, 12] {
            let mut lists = with_build(&mut self.random, l, 3, 2, WIDE);
            let i = self.random.below(3);
            lists.words[i] = (1 << (2 * l)) - 1;
            _ = self.settles(&lists);
            for word in [1 << (2 * l), lists.words[i] | 1 << 31] {
                lists.words[i] = word;
                self.refuses_lists(&lists, LONGEST_OUTPUT, (10, i));
            }
        }
        let sound = with_build(&mut self.random, 4, 20, 4, WIDE);
        for (one, two) in [(20, 20), (19, 20), (1, 0), (NO_PLACE, NO_PLACE), (7, 15)] {
            let mut lists = sound.clone();
            let i = self.random.below(20);
            (lists.ones[i], lists.twos[i]) = (one, two);
            let room = self.random.pick(&[0, LONGEST_OUTPUT]);
            self.refuses_lists(&lists, room, (11, i));
        }
        for (one, two) in [(19, 19), (16, 19), (0, 3)] {
            let mut lists = sound.clone();
            (lists.ones[0], lists.twos[0]) = (one, two);
            _ = self.settles(&lists);
        }
    }
}
