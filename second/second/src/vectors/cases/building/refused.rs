//! Cards that are refused: the reader's refusals in their order, and 12 after them.

use crate::cards::put_all_right;
use crate::numbers::BLOCK;
use crate::stored::LONGEST_OUTPUT;
use crate::vectors::cases::several::ladder;
use crate::vectors::cases::{Cases, KINDS};

impl Cases {
    /// All cards with faults that are known.
    pub(super) fn refused_builds(&mut self) {
        self.cut_cards();
        self.later_bytes();
        let ladder = ladder();
        for low in 0..ladder.len() {
            for high in low..ladder.len() {
                let card = self.faulty(&ladder, &[low, high]);
                let (number, place) = ladder[low].0;
                self.refused_card(&card, number, place);
            }
        }
        for _ in 0..40 {
            let mut chosen = [0; 3].map(|_| self.random.below(ladder.len()));
            chosen.sort_unstable();
            let card = self.faulty(&ladder, &chosen);
            let (number, place) = ladder[chosen[0]].0;
            self.refused_card(&card, number, place);
        }
        self.sound_without_room();
    }

    /// Cards that are cut, with other faults or without: 1 comes before all else.
    fn cut_cards(&mut self) {
        let ladder = ladder();
        for kind in KINDS {
            let card = self.sound(kind, 3, 65);
            for cut in [0, 1, 6, BLOCK - 1] {
                self.refused_card(&card[..cut], 1, 0);
            }
            for cut in [BLOCK, BLOCK + 1, card.len() - BLOCK, card.len() - 1] {
                self.refused_card(&card[..cut], 9, 0);
            }
        }
        for rung in 0..ladder.len() {
            let card = self.faulty(&ladder, &[rung]);
            self.refused_card(&card[..BLOCK - 1], 1, 0);
        }
    }

    /// Bytes after the card, whatever they are.
    fn later_bytes(&mut self) {
        for kind in KINDS {
            let card = self.sound(kind, 5, 3);
            let mut block = vec![0; BLOCK];
            put_all_right(&mut block);
            for later in [&[0][..], &[10], &[255], &block, &card] {
                self.refused_card(&[&card, later].concat(), 9, 0);
            }
        }
    }

    /// The same card without a fault: now 12 comes, up to one byte less than m+l−1.
    fn sound_without_room(&mut self) {
        for kind in KINDS {
            let card = self.sound(kind, 3, 65);
            self.record.set_card(&card);
            for room in [0, 1, 64, 65, 66] {
                self.unbuilt_in(room, 12, 0);
            }
            let (answer, _) = self.record.build(100, 67);
            assert!(answer.is_ok(), "{answer:?} with room for a build");
        }
    }

    /// Records a card that must be refused with this number and place, whatever the room is.
    pub(super) fn refused_card(&mut self, card: &[u8], number: u8, place: usize) {
        self.record.set_card(card);
        let any = self.random.below(LONGEST_OUTPUT);
        for room in [0, any, LONGEST_OUTPUT] {
            self.unbuilt_in(room, number, place);
        }
    }
}
