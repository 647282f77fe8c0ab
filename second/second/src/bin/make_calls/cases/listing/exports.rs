//! Cards that are exported: the tables, cards of every size, and cards that the reader refuses.

use second::cards::{any_card, Draft};
use second::lists::Lists;
use second::numbers::BLOCK;
use second::profile::Kind;
use second::reader;
use second::stored::BYTE_BEFORE;
use second::tables::tables;
use second::texts::text_of;

use super::{hold_refused, number_and_place, Refused};
use crate::cases::ladders::{spoil_card, CARD_FAULTS};
use crate::cases::{Cases, KINDS};
use crate::record::LONGEST_TEXT;

impl Cases {
    /// All of them.
    pub(super) fn exports(&mut self) {
        for table in tables() {
            let card = table.lists.card().expect("a sound table");
            self.exports_in(&card, LONGEST_TEXT);
        }
        self.cards_of_every_size();
        for kind in KINDS {
            let card = Draft::sound(&mut self.random, kind, 3, 5).lay_out();
            for (cut, number) in [(0, 1), (1, 1), (BLOCK - 1, 1), (BLOCK, 9), (1023, 9)] {
                self.refuses_both(&card[..cut], (number, 0));
            }
            self.refuses_both(&[&card[..], &[10]].concat(), (9, 0));
            for rung in 0..CARD_FAULTS {
                self.spoilt(kind, &[rung]);
                let later = self.random.between(rung, CARD_FAULTS - 1);
                self.spoilt(kind, &[rung, later]);
            }
        }
        for _ in 0..40 {
            self.any_card_exported();
        }
    }

    /// Numbers of one, two and three digits, and words of every length.
    fn cards_of_every_size(&mut self) {
        for kind in KINDS {
            for (l, m) in [
                (2, 1),
                (3, 9),
                (4, 10),
                (5, 11),
                (6, 99),
                (7, 100),
                (8, 101),
            ] {
                let card = Draft::sound(&mut self.random, kind, l, m).lay_out();
                self.exports_in(&card, LONGEST_TEXT);
            }
            for (l, m) in [(9, 63), (10, 64), (11, 503), (12, 504)] {
                let card = Draft::sound(&mut self.random, kind, l, m).lay_out();
                self.exports_in(&card, LONGEST_TEXT);
                self.record.again(&card);
            }
        }
    }

    /// Records exporting an admitted card into enough room: its text as `texts` puts it.
    pub(super) fn exports_in(&mut self, card: &[u8], room: usize) {
        let (answer, out) = self.record.export(card, room);
        let mut wanted = text_of(&Lists::of_card(card).expect("an admitted card"));
        assert_eq!(answer, Ok(wanted.len()), "the length of a text");
        wanted.resize(room, BYTE_BEFORE);
        assert!(out == wanted, "the text of a card");
    }

    /// Records a card with the chosen faults of the ladder, of which the lowest comes first.
    fn spoilt(&mut self, kind: Kind, chosen: &[usize]) {
        let mut card = Draft::sound(&mut self.random, kind, 3, 65).lay_out();
        let wanted = spoil_card(&mut card, chosen);
        self.refuses_both(&card, wanted);
    }

    /// Records a card that must be refused by export, whatever the room is, or by the way there and back.
    fn refuses_both(&mut self, card: &[u8], wanted: Refused) {
        if self.random.once_in(4) {
            return self.record.again(card);
        }
        let room = self.random.pick(&[0, LONGEST_TEXT]);
        let called = self.record.export(card, room);
        hold_refused(&called, wanted);
    }

    /// Records a card of any sort.
    fn any_card_exported(&mut self) {
        // A full card is long, so that a shorter one is drawn instead.
        let mut card = any_card(&mut self.random);
        while card.len() > 3 * BLOCK {
            card = any_card(&mut self.random);
        }
        match reader::admit(&card) {
            Ok(_) => self.exports_in(&card, LONGEST_TEXT),
            Err(refusal) => self.refuses_both(&card, number_and_place(refusal)),
        }
    }
}
