//! Cards with rings that are tied, of equal words, or at odds.

use second::count::Count::{self, Power};
use second::pair_lists::{
    at_odds, beside_a_ring, beside_two_rings, by_turns, in_rings, in_steps, mirrored, pin,
    round_words, scattered,
};

use crate::cases::Cases;

impl Cases {
    /// All cards with rings.
    pub(super) fn ringed(&mut self) {
        self.one_ring();
        self.rings_of_equal_words();
        self.mirrored_rings();
        for (l, m) in [(2, 3), (2, 9), (3, 12), (2, 63), (4, 126), (2, 504)] {
            let letters = self.random.pick(&[[0, 1], [1, 0], [3, 2]]);
            self.counted_as(&beside_a_ring(l, m, letters), Power(0));
        }
        for m in [8, 16, 63] {
            self.counted_as(&beside_two_rings(m), Power(0));
        }
        for m in [4, 6, 8, 12, 64] {
            self.counted_as(&at_odds(m), Count::None);
        }
        self.counted_both(&at_odds(504), Count::None);
    }

    /// One ring through all places, of a sequence that goes round: one choice, unless it is made.
    fn one_ring(&mut self) {
        for (l, m) in [(3, 5), (3, 12), (4, 63), (7, 252)] {
            // Not all words are equal, so that the two ways round differ.
            let mut words = round_words(&mut self.random, l, m, 4);
            while words[0] == words[1] {
                words = round_words(&mut self.random, l, m, 4);
            }
            let ring = in_steps(l, &words, 1);
            self.counted_both(&ring, Power(1));
            let i = self.random.below(m);
            for place in [i, (i + 1) % m] {
                let mut made = ring.clone();
                pin(&mut made, i, place);
                self.counted_as(&made, Power(0));
            }
        }
    }

    /// Rings of equal words are no choice, however many there are.
    fn rings_of_equal_words(&mut self) {
        for (l, m) in [(2, 2), (3, 7), (2, 12), (12, 63), (5, 126)] {
            let word = self.random.pick(&[0, (1 << (2 * l)) - 1]);
            let words = vec![word; m];
            for step in [1, 2, 3] {
                self.counted_as(&in_steps(l, &words, step), Power(0));
            }
            let rings = in_rings(&mut self.random, l, &words);
            self.counted_both(&rings, Power(0));
            let scattered = scattered(&mut self.random, l, &words);
            self.counted_as(&scattered, Power(0));
        }
        self.counted_both(&in_steps(2, &[0; 504], 252), Power(0));
    }

    /// Rings that tie each other from both ends to the middle.
    fn mirrored_rings(&mut self) {
        for (l, m) in [(2, 2), (2, 6), (3, 8), (2, 64), (5, 126)] {
            let words = by_turns(l, m);
            let free = mirrored(l, &words);
            self.counted_both(&free, Power(1));
            for (i, place) in [(0, 0), (0, m - 1), (m / 2, m / 2)] {
                let mut made = free.clone();
                pin(&mut made, i, place);
                self.counted_as(&made, Power(0));
            }
        }
    }
}
