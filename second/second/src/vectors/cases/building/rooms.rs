//! Room around m+l−1, whatever the verdict is.

use crate::lists::Lists;
use crate::pair_lists::{forced_up, in_steps, with_choices};
use crate::profile::Kind;
use crate::spans::{sequence, with_build, words_in};
use crate::stored::LONGEST_OUTPUT;
use crate::vectors::cases::Cases;
use crate::verdict::Verdict;

impl Cases {
    /// Room around m+l−1 and far from it, for each verdict on each kind of card.
    pub(super) fn rooms_of_builds(&mut self) {
        for m in [1, 2, 3, 8, 9, 63, 64, 200, 504] {
            let lists = with_build(&mut self.random, 4, m, 4, 2);
            let verdict = self.rooms_of(&lists, 2000);
            assert_ne!(verdict, Verdict::None, "lists that have a build");
            // Every span card with a build is Unsettled at budget 0.
            assert_eq!(self.rooms_of(&lists, 0), Verdict::Unsettled);
            let words = words_in(&sequence(&mut self.random, 5, m, 4), 5);
            // Twelve letters T are one word over and over.
            let equal = vec![0xFF_FFFF; m];
            for pairs in [forced_up(5, &words), in_steps(12, &equal, 1)] {
                assert_eq!(self.rooms_of(&pairs, 0), Verdict::Sole);
            }
        }
        for m in [4, 8, 63, 504] {
            let lists = with_choices(&mut self.random, 2, m, 2);
            assert_eq!(self.rooms_of(&lists, 7), Verdict::Several);
        }
        for m in [2, 5, 63, 504] {
            for kind in [Kind::Pair, Kind::Span] {
                let flat = self.flat_lists(kind, m);
                assert_eq!(self.rooms_of(&flat, 0), Verdict::None);
            }
        }
    }

    /// Records the lists with each room, and gives the verdict; a room of fewer bytes is refused.
    fn rooms_of(&mut self, lists: &Lists, budget: u32) -> Verdict {
        let m = lists.words.len();
        let need = lists.build_length();
        let found = self.found_in(need, lists, budget);
        for room in [need + 1, need + 2, LONGEST_OUTPUT] {
            let with_more = self.found_in(room, lists, budget);
            assert_eq!(with_more, found, "room changed the answer");
        }
        let mut short = vec![0, 1, m / 2, m - 1, m, need - 1];
        short.retain(|&room| room < need);
        short.sort_unstable();
        short.dedup();
        for room in short {
            self.unbuilt_in(room, 12, 0);
        }
        found.verdict
    }
}
