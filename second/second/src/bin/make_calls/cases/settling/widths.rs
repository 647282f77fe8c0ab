//! Widths from 1 to 8, and pair cards: 12 comes first, then 5 for pairs, then 30 with the first entry that is wider.

use second::entry::Stored;
use second::lists::Lists;
use second::narrow::{crowded, WIDE};
use second::numbers::{NO_PLACE, SPAN_WIDTH};
use second::pair_lists::with_choices;
use second::profile::Kind;
use second::spans::{around, sequence, with_build, words_in};

use crate::cases::Cases;

impl Cases {
    /// All cards with wider spans, and pair cards.
    pub(super) fn widths(&mut self) {
        for width in 1..=WIDE {
            let words = words_in(&sequence(&mut self.random, 2, 12, 3), 2);
            let lists = around(&mut self.random, 2, &words, width, width);
            _ = self.settles(&lists);
        }
        for (l, m) in [(2, 5), (3, 9), (12, 63), (2, 64)] {
            for i in [0, m / 2, m - 1] {
                self.wider_at(l, m, &[i]);
            }
        }
        for wider in [&[0, 19][..], &[7, 8], &[3, 10, 19], &[18, 19]] {
            self.wider_at(2, 20, wider);
        }
        let mut full = with_build(&mut self.random, 3, 504, 3, WIDE);
        (full.ones[503], full.twos[503]) = (499, 503);
        self.refuses_lists(&full, 506, (30, 503));
        self.wider_and_crowded();
        self.every_width_at_the_end();
        self.pair_cards();
    }

    /// Pair cards, whatever their places would be as spans.
    fn pair_cards(&mut self) {
        for (l, m, half) in [(2, 4, 2), (3, 12, 3), (4, 63, 9)] {
            let pairs = with_choices(&mut self.random, l, m, half);
            self.after_12(&pairs, (5, 0));
        }
        // Neighbouring places would be narrow as spans, and places far apart would not be spans at all.
        for places in [[0, NO_PLACE], [0, 1], [0, 4], [0, 9]] {
            let mut pairs = Lists::sound(&mut self.random, Kind::Pair, 3, 10);
            [pairs.ones[0], pairs.twos[0]] = places;
            self.after_12(&pairs, (5, 0));
        }
    }

    /// Records lists with a build, in which these entries, of which the first comes first, are wider than 4.
    fn wider_at(&mut self, l: usize, m: usize, wider: &[usize]) {
        let mut lists = with_build(&mut self.random, l, m, 3, WIDE);
        for &i in wider {
            let most = m.min(usize::from(SPAN_WIDTH));
            let width = self.random.between(WIDE + 1, most);
            let one = self.random.below(m - width + 1);
            (lists.ones[i], lists.twos[i]) = (one as u16, (one + width - 1) as u16);
        }
        self.after_12(&lists, (30, wider[0]));
    }

    /// A place that is too crowded comes after a span that is too wide.
    fn wider_and_crowded(&mut self) {
        let mut lists = crowded(&mut self.random, 2, 8, 2);
        lists.ones = vec![0; 8];
        lists.twos = vec![3; 8];
        lists.twos[7] = 4;
        self.after_12(&lists, (30, 7));
    }

    /// The last entry gets one place more each time, from its own place to one that no card allows.
    fn every_width_at_the_end(&mut self) {
        let letters = vec![0; 13];
        let mut lists = around(&mut self.random, 2, &words_in(&letters, 2), 1, 1);
        for width in 1..=SPAN_WIDTH {
            let one = 12 - width;
            let Stored { word, two, .. } = lists.get(11);
            lists.put(11, Stored { word, one, two });
            match width {
                1..=4 => _ = self.settles(&lists),
                _ => self.after_12(&lists, (30, 11)),
            }
        }
        lists.ones[11] = 3;
        self.refuses_lists(&lists, 13, (11, 11));
        self.refuses_lists(&lists, 0, (11, 11));
    }

    /// Records sound lists that must be refused like this after 12, and the card of those that are short.
    fn after_12(&mut self, lists: &Lists, wanted: (u8, usize)) {
        let need = lists.build_length();
        self.refuses_lists(lists, need, wanted);
        self.refuses_lists(lists, need - 1, (12, 0));
        let card = lists.card().expect("sound lists");
        let (room, wanted) = self
            .random
            .pick(&[(0, (12, 0)), (need - 1, (12, 0)), (need, wanted)]);
        self.refuses_card(&card, room, wanted);
    }
}
