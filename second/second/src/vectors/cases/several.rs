//! Several faults at once, and input that is no card at all.

use super::{Cases, KINDS};
use crate::cards::{any_bytes, any_index, any_sound_card, damage, entry_start, put_all_right};
use crate::numbers::{BLOCK, CHECK_A};

/// One fault: the refusal that it gives by itself, and how it is made.
pub(super) type Fault = ((u8, usize), fn(&mut Vec<u8>));

impl Cases {
    /// Pairs and triples from a ladder of faults: the one that is tested first decides.
    pub(super) fn orders(&mut self) {
        let ladder = ladder();
        for low in 0..ladder.len() {
            for high in low..ladder.len() {
                self.together(&ladder, &[low, high]);
            }
        }
        for _ in 0..100 {
            let mut chosen = [0; 3].map(|_| self.random.below(ladder.len()));
            chosen.sort_unstable();
            self.together(&ladder, &chosen);
        }
    }

    /// Records a card with the chosen faults of the ladder, of which the lowest comes first.
    fn together(&mut self, ladder: &[Fault], chosen: &[usize]) {
        let card = self.faulty(ladder, chosen);
        let (number, place) = ladder[chosen[0]].0;
        self.refused(&card, number, place);
    }

    /// A card on which the chosen faults of the ladder are made.
    pub(super) fn faulty(&mut self, ladder: &[Fault], chosen: &[usize]) -> Vec<u8> {
        let kind = self.random.pick(&KINDS);
        let mut card = self.sound(kind, 3, 65);
        for &rung in chosen {
            ladder[rung].1(&mut card);
        }
        put_all_right(&mut card);
        // Putting the checks right undid the faults in checks; they are made again.
        for &rung in chosen {
            if ladder[rung].0 .0 == 2 {
                ladder[rung].1(&mut card);
            }
        }
        card
    }

    /// Cards with several random faults; the reader alone says what they get.
    pub(super) fn many_faults(&mut self) {
        for round in 0..270 {
            let mut card = any_sound_card(&mut self.random);
            damage(&mut self.random, &mut card, 1 + round % 3);
            self.set_card(&card);
            self.whatever_comes();
        }
    }

    /// Random bytes, with and without a head that helps them on.
    pub(super) fn no_cards(&mut self) {
        for _ in 0..120 {
            let card = any_bytes(&mut self.random);
            self.set_card(&card);
            self.whatever_comes();
        }
    }

    /// Records some operations on the current card, whatever it gets.
    fn whatever_comes(&mut self) {
        let k = match self.record.admit() {
            Err(refusal) if matches!(refusal.number(), 2 | 3 | 8) => refusal.place,
            _ => any_index(&mut self.random, self.record.card()),
        };
        let mut any = || any_index(&mut self.random, self.record.card()) as u64;
        let (i, h) = (any(), any());
        _ = self.record.entry(i);
        _ = self.record.step(h);
        self.probe(k);
    }
}

/// Faults in the order on reading, for a card with l = 3 and m = 65.
///
/// No fault hides one that comes before it, so that of any choice of them the
/// lowest rung decides.
pub(super) fn ladder() -> Vec<Fault> {
    fn spoil_check(card: &mut [u8], k: usize) {
        card[k * BLOCK + CHECK_A] = card[k * BLOCK + CHECK_A].wrapping_add(1);
    }
    fn spoil_index(card: &mut [u8], k: usize) {
        card[k * BLOCK + 509] = 7;
    }
    fn spoil_word(card: &mut [u8], i: usize) {
        card[entry_start(i) + 1] = 1;
    }
    fn spoil_places(card: &mut [u8], i: usize) {
        // 65,535 as place one is wrong on either kind.
        card[entry_start(i) + 4..][..2].copy_from_slice(&[255, 255]);
    }
    vec![
        ((2, 0), |card| spoil_check(card, 0)),
        ((3, 0), |card| spoil_index(card, 0)),
        ((4, 0), |card| card[0] = 2),
        ((5, 0), |card| card[1] = 3),
        ((6, 0), |card| card[2] = 13),
        ((7, 0), |card| card[5] = 2),
        ((8, 0), |card| card[300] = 9),
        ((9, 0), |card| card.push(0)),
        ((2, 1), |card| spoil_check(card, 1)),
        ((3, 1), |card| spoil_index(card, 1)),
        ((10, 0), |card| spoil_word(card, 0)),
        ((11, 0), |card| spoil_places(card, 0)),
        ((10, 1), |card| spoil_word(card, 1)),
        ((11, 1), |card| spoil_places(card, 1)),
        ((10, 62), |card| spoil_word(card, 62)),
        ((11, 62), |card| spoil_places(card, 62)),
        ((8, 1), |card| card[BLOCK + 504] = 1),
        ((2, 2), |card| spoil_check(card, 2)),
        ((3, 2), |card| spoil_index(card, 2)),
        ((10, 63), |card| spoil_word(card, 63)),
        ((11, 63), |card| spoil_places(card, 63)),
        ((10, 64), |card| spoil_word(card, 64)),
        ((11, 64), |card| spoil_places(card, 64)),
        ((8, 2), |card| card[2 * BLOCK + 16] = 1),
    ]
}
