//! Room around a card's size and around a list's, for sound ones.

use second::lists::Lists;
use second::refusal::Reason;
use second::texts::text_of;

use crate::cases::listing::{hold_refused, number_and_place};
use crate::cases::{Cases, KINDS};
use crate::record::{LONGEST_ROOM, LONGEST_TEXT};

impl Cases {
    /// Each room: as many bytes as it takes, one less, one more, none, and far from it.
    pub(super) fn rooms_of_lists(&mut self) {
        for kind in KINDS {
            for (l, m) in [(2, 1), (3, 5), (12, 63), (5, 64), (7, 126)] {
                let lists = Lists::sound(&mut self.random, kind, l, m);
                self.rooms_for(&lists);
            }
        }
    }

    /// Each room for the card of these lists, and for their text.
    fn rooms_for(&mut self, lists: &Lists) {
        let short = number_and_place(Reason::Room.at(0));
        let card = lists.card().expect("sound lists");
        let text = text_of(lists);
        let (size, length) = (card.len(), text.len());
        for room in [size, size + 1, size + 512, LONGEST_ROOM] {
            let (answer, _) = self.import_in(&text, room);
            assert_eq!(answer, Ok(size));
        }
        for room in [0, 1, 512, size - 512, size - 1] {
            let called = self.import_in(&text, room);
            hold_refused(&called, short);
        }
        for room in [length, length + 1, length + 21, LONGEST_TEXT] {
            self.exports_in(&card, room);
        }
        for room in [0, 1, length / 2, length - 1] {
            let called = self.record.export(&card, room);
            hold_refused(&called, short);
        }
    }
}
