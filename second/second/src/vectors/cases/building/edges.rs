//! The edges of the numbers: what passes is built from, and what lies beside it is refused.

use crate::lists::Lists;
use crate::pair_lists;
use crate::profile::Kind;
use crate::spans;
use crate::vectors::cases::faults::edge_places;
use crate::vectors::cases::{Cases, KINDS};

/// The most placements that a card at an edge is walked for.
const MOST: u32 = 500;

impl Cases {
    /// All edges.
    pub(super) fn edges_of_builds(&mut self) {
        for kind in KINDS {
            self.edges_of_letters(kind);
            self.edges_of_counts(kind);
            self.edges_of_words(kind);
            self.edges_of_places(kind);
        }
    }

    /// Words of 2 and of 12 letters pass, and of 1 and of 13 are refused.
    fn edges_of_letters(&mut self, kind: Kind) {
        for l in 0..=14 {
            let mut lists = self.flat_lists(kind, 3);
            lists.l = l;
            match l {
                2..=12 => self.passes(&lists),
                _ => self.unbuilt(&lists, 6, 0),
            }
        }
    }

    /// Cards of 1 and of 504 entries pass, and of 0 and of 505 are refused.
    fn edges_of_counts(&mut self, kind: Kind) {
        for m in [1, 2, 63, 64, 503, 504] {
            let lists = self.buildable(kind, 4, m);
            self.passes(&lists);
        }
        for m in [0, 505, 567] {
            let lists = self.flat_lists(kind, m);
            self.unbuilt(&lists, 7, 0);
        }
    }

    /// A word of 4^l−1 passes, and one of 4^l is refused.
    fn edges_of_words(&mut self, kind: Kind) {
        for l in 2..=12 {
            let limit = 1 << (2 * l);
            let sound = self.buildable(kind, l, 5);
            let i = self.random.below(5);
            for word in [limit - 1, limit, sound.words[i] | 1 << 31] {
                let mut lists = sound.clone();
                lists.words[i] = word;
                match word < limit {
                    true => self.passes(&lists),
                    false => self.unbuilt(&lists, 10, i),
                }
            }
        }
        for (m, i) in [(64, 62), (64, 63), (504, 503)] {
            let mut lists = self.buildable(kind, 9, m);
            lists.words[i] = 1 << 18;
            self.unbuilt(&lists, 10, i);
        }
    }

    /// Places at their limits, for several counts and at several entries.
    fn edges_of_places(&mut self, kind: Kind) {
        for (m, i) in [(1, 0), (2, 1), (8, 7), (9, 4), (20, 19), (64, 63)] {
            let sound = self.buildable(kind, 10, usize::from(m));
            for (one, two, allowed) in edge_places(kind, m) {
                let mut lists = sound.clone();
                (lists.ones[i], lists.twos[i]) = (one, two);
                match allowed {
                    true => self.passes(&lists),
                    false => self.unbuilt(&lists, 11, i),
                }
            }
        }
    }

    /// Lists of this kind that have a build.
    fn buildable(&mut self, kind: Kind, l: usize, m: usize) -> Lists {
        match kind {
            Kind::Pair => pair_lists::with_build(&mut self.random, l, m, 4),
            Kind::Span => spans::with_build(&mut self.random, l, m, 4, 2),
        }
    }

    /// Records lists that must not be refused, with some budget.
    fn passes(&mut self, lists: &Lists) {
        let budget = self.random.pick(&[0, 1, MOST]);
        _ = self.found(lists, budget);
    }

    /// Records the card that these lists ask for, which must be refused whatever the room is.
    fn unbuilt(&mut self, lists: &Lists, number: u8, place: usize) {
        let draft = lists.draft().expect("lists of one length");
        self.refused_card(&draft.lay_out(), number, place);
    }
}
