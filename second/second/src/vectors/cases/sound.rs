//! Sound cards: the small tables, random entries, and lists for them.

use super::{Cases, KINDS};
use crate::cards::{any_sound_card, put_right};
use crate::lists::LONGEST_LIST;
use crate::numbers::BLOCK;
use crate::tables::tables;

impl Cases {
    /// The small tables of the scope document, each entry stepped through.
    pub(super) fn tables(&mut self) {
        for table in tables() {
            let draft = table.lists.draft().expect("lists of one length");
            self.admitted(&draft.lay_out());
            for i in 0..=u64::from(draft.m) {
                _ = self.record.entry(i);
                _ = self.record.step(i);
            }
        }
    }

    /// Sound cards of both kinds with random entries.
    pub(super) fn sound_cards(&mut self) {
        for m in [1, 2, 3, 8, 62, 63, 64, 126, 127, 200, 504] {
            for kind in KINDS {
                let l = self.random.between(2, 12) as u8;
                let card = self.sound(kind, l, m);
                self.admitted(&card);
                self.survey();
                if m <= 64 {
                    for i in 0..=u64::from(m) {
                        _ = self.record.entry(i);
                        _ = self.record.step(i);
                    }
                }
            }
        }
        for _ in 0..40 {
            let card = any_sound_card(&mut self.random);
            self.admitted(&card);
            self.probe(1);
            self.probe(card.len() / BLOCK - 1);
        }
    }

    /// Lists with room, with too little of it, and with more than is wanted.
    pub(super) fn lists(&mut self) {
        for m in [1, 2, 8, 62, 63, 64, 126, 200, 504] {
            for kind in KINDS {
                let card = self.sound(kind, 12, m);
                self.set_card(&card);
                let full = LONGEST_LIST;
                let enough = [
                    (m, m, m),
                    (m + 1, m, m + 7),
                    (full, full, full),
                    (m, full, m + 1),
                ];
                for (words, ones, twos) in enough {
                    assert!(self.record.lists(words, ones, twos).is_ok());
                }
                let short = [
                    (m - 1, m, m),
                    (m, m - 1, m),
                    (m, m, m - 1),
                    (m - 1, m - 1, m - 1),
                    (0, 0, 0),
                    (0, full, full),
                    (full, m - 1, full),
                    (full, full, 0),
                ];
                for (words, ones, twos) in short {
                    let refusal = self.record.lists(words, ones, twos).unwrap_err();
                    assert_eq!((refusal.number(), refusal.place), (12, 0));
                }
            }
        }
        // The card's own refusal comes before 12.
        for kind in KINDS {
            let mut card = self.sound(kind, 3, 64);
            card[2 * BLOCK] = 64;
            put_right(&mut card, 2);
            self.refused(&card, 10, 63);
            for slots in [0, 63, 64, 65] {
                let refusal = self.record.lists(slots, slots, slots).unwrap_err();
                assert_eq!((refusal.number(), refusal.place), (10, 63));
            }
        }
    }
}
