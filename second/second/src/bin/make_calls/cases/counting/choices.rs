//! Choices that are free of each other, from one to as many as a power can have.

use second::count::Count::{self, Power};
use second::known_counts::{choice_of_three, copies, exchanged_afar};
use second::pair_lists::{pin, with_choices};

use crate::cases::Cases;

impl Cases {
    /// All cards with choices.
    pub(super) fn choices(&mut self) {
        self.every_exponent();
        for m in [4, 8, 12, 16, 64, 252] {
            self.counted_both(&exchanged_afar(m), Power(m as u32 / 4));
        }
        for (l, m, half) in [
            (2, 4, 2),
            (2, 8, 2),
            (3, 12, 3),
            (2, 13, 4),
            (4, 63, 9),
            (6, 126, 63),
            (12, 252, 30),
            (2, 504, 2),
            (5, 504, 252),
        ] {
            let lists = with_choices(&mut self.random, l, m, half);
            self.counted_both(&lists, Power((m / (2 * half)) as u32));
        }
        for (l, m, half) in [
            (2, 12, 2),
            (3, 24, 3),
            (2, 40, 4),
            (4, 126, 5),
            (2, 160, 2),
            (12, 120, 12),
        ] {
            for every in [1, 2, 5] {
                self.made_choices((l, m, half), every);
            }
            self.choice_made_twice((l, m, half));
        }
    }

    /// Each exponent up to 24, then some around the bits of a machine word, up to 168.
    fn every_exponent(&mut self) {
        let part = choice_of_three();
        for number in (1..=24).chain([31, 32, 33, 63, 64, 65, 100, 127, 129]) {
            self.counted_as(&copies(&part, number), Power(number as u32));
        }
        for number in [2, 16, 128, 168] {
            self.counted_both(&copies(&part, number), Power(number as u32));
        }
    }

    /// Records a card with choices, of which one in so many is made on average, either way.
    fn made_choices(&mut self, (l, m, half): (usize, usize, usize), every: usize) {
        let mut lists = with_choices(&mut self.random, l, m, half);
        let both = 2 * half;
        let mut free = 0;
        for start in (0..m / both).map(|choice| both * choice) {
            if !self.random.once_in(every) {
                free += 1;
                continue;
            }
            // One entry of the choice is left one of its places.
            let offset = self.random.below(both);
            let other = self.random.pick(&[offset, (offset + half) % both]);
            pin(&mut lists, start + offset, start + other);
        }
        self.counted_as(&lists, Power(free));
    }

    /// Records a card of which one choice is made by two entries, by each another way.
    fn choice_made_twice(&mut self, (l, m, half): (usize, usize, usize)) {
        let mut lists = with_choices(&mut self.random, l, m, half);
        let both = 2 * half;
        let start = both * self.random.below(m / both);
        pin(&mut lists, start, start);
        pin(&mut lists, start + both - 1, start + half - 1);
        self.counted_as(&lists, Count::None);
    }
}
