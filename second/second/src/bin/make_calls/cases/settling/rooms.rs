//! Room around m+l−1, whatever the verdict is.

use second::lists::Lists;
use second::narrow::{widest, without_end, WIDE};
use second::spans::{around, with_build, words_in};
use second::stored::LONGEST_OUTPUT;
use second::verdict::Verdict;

use crate::cases::Cases;

impl Cases {
    /// Room around m+l−1 and far from it, for each verdict.
    pub(super) fn rooms(&mut self) {
        for (l, m) in [(2, 1), (12, 1), (3, 9), (5, 63)] {
            let sole = around(&mut self.random, l, &vec![0; m], 1, WIDE);
            self.rooms_of(&sole, Verdict::Sole);
        }
        for m in [5, 20] {
            // AC, CA and AA by turns may change places in many ways.
            let letters: Vec<u32> = (0..=m).map(|k| [0, 1, 0][k % 3]).collect();
            let several = widest(&mut self.random, 2, &words_in(&letters, 2));
            self.rooms_of(&several, Verdict::Several);
            let none = without_end(&mut self.random, 3, m);
            self.rooms_of(&none, Verdict::None);
        }
        let full = with_build(&mut self.random, 12, 504, 4, WIDE);
        _ = self.settled_in(515, &full);
        self.refuses_lists(&full, 514, (12, 0));
    }

    /// Records the lists with each room, or their card; a room of fewer bytes is refused, whatever the verdict would be.
    fn rooms_of(&mut self, lists: &Lists, wanted: Verdict) {
        let need = lists.build_length();
        let found = self.settled_in(need, lists);
        assert_eq!(found.verdict, wanted, "{lists:?}");
        for room in [need + 1, LONGEST_OUTPUT] {
            assert_eq!(
                self.settled_in(room, lists),
                found,
                "room changed the answer"
            );
        }
        for room in [0, need / 2, need - 1] {
            self.refuses_lists(lists, room, (12, 0));
        }
        let card = lists.card().expect("sound lists");
        self.refuses_card(&card, need - 1, (12, 0));
        assert_eq!(
            self.settled_card_in(need, lists),
            found,
            "a card and its lists"
        );
    }
}
