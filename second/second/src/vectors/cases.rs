//! The cases of the vectors: each rule and edge by itself, then many at once.
//!
//! Where a case is made for one rule, the answer is stated beside it as the
//! scope document gives it, and the program stops if `second` says otherwise.

mod building;
mod faults;
mod pairing;
mod several;
mod sound;
mod walking;
mod writing;

use crate::cards::{any_index, claimed_count, Draft, Random};
use crate::lists::LONGEST_LIST;
use crate::numbers::BLOCK;
use crate::profile::Kind;
use crate::reader;
use crate::vectors::record::{Record, LONGEST_ROOM};

/// Both kinds of card.
const KINDS: [Kind; 2] = [Kind::Pair, Kind::Span];

/// The vectors in the making.
pub struct Cases {
    record: Record,
    random: Random,
    /// Draws the rooms for writing a card again, apart from all else that is drawn.
    rooms: Random,
}

impl Cases {
    /// All vectors that this seed draws.
    pub fn all(seed: u64) -> Record {
        let mut cases = Cases {
            record: Record::default(),
            random: Random::new(seed),
            rooms: Random::new(seed + 1),
        };
        cases.tables();
        cases.sound_cards();
        cases.lists();
        cases.lengths();
        cases.heads();
        cases.checks();
        cases.zero_sums();
        cases.indices();
        cases.words();
        cases.places();
        cases.spares();
        cases.orders();
        cases.many_faults();
        cases.no_cards();
        cases.writing();
        cases.building();
        // Last, so that the vectors before these stay as they are.
        cases.large_sums();
        cases.record
    }

    /// A sound card with random entries.
    fn sound(&mut self, kind: Kind, l: u8, m: u16) -> Vec<u8> {
        Draft::sound(&mut self.random, kind, l, m).lay_out()
    }

    /// Sets the current card, and records writing it again: always where the reader admits it.
    fn set_card(&mut self, card: &[u8]) {
        self.record.set_card(card);
        let n = card.len();
        if reader::admit(card).is_ok() {
            self.record.again(n);
            if self.rooms.once_in(2) {
                let less = self.rooms.below(n);
                let more = n + self.rooms.between(2, 2 * BLOCK);
                for room in [n - 1, n + 1, less, more] {
                    self.record.again(room);
                }
            }
        } else if self.rooms.once_in(8) {
            // The card's own refusal comes before 12.
            let room = self.rooms.pick(&[0, n, LONGEST_ROOM]);
            self.record.again(room);
        }
    }

    /// Records a card that must be admitted.
    fn admitted(&mut self, card: &[u8]) {
        self.set_card(card);
        if let Err(refusal) = self.record.admit() {
            panic!("{refusal:?} for a card that is sound");
        }
        self.probe(0);
    }

    /// Records a card that must be refused with this number and place, by every call that admits.
    fn refused(&mut self, card: &[u8], number: u8, place: usize) {
        self.set_card(card);
        let i = any_index(&mut self.random, card) as u64;
        let h = any_index(&mut self.random, card) as u64;
        let answers = [
            self.record.admit().err(),
            self.record.entry(i).err(),
            self.record.step(h).err(),
        ];
        for answer in answers {
            let answer = answer.map(|refusal| (refusal.number(), refusal.place));
            assert_eq!(answer, Some((number, place)), "a refusal stated by hand");
        }
        let block = match number {
            2 | 3 | 8 => place,
            10 | 11 => 1 + place / 63,
            _ => 0,
        };
        self.probe(block);
    }

    /// Records the operations on the current card at some numbers, and block k among them.
    fn probe(&mut self, k: usize) {
        let mut any = || any_index(&mut self.random, self.record.card()) as u64;
        let (i, h, b, f) = (any(), any(), any(), any());
        // Most answers repeat those of the same card, so that only some are kept.
        match self.random.below(4) {
            0 => _ = self.record.entry(i),
            1 => _ = self.record.step(h),
            2 => _ = self.record.fetch(b),
            _ => _ = self.record.companion(f),
        }
        let k = k as u64;
        let held = self.record.companion(k);
        assert_eq!(self.record.fetch(k), held.is_ok());
        if self.random.once_in(6) {
            let m = claimed_count(self.record.card()).min(LONGEST_LIST);
            let mut slots = || {
                let near = [m, m, m, m.saturating_sub(1), LONGEST_LIST, 0];
                self.random.pick(&near)
            };
            let (words, ones, twos) = (slots(), slots(), slots());
            _ = self.record.lists(words, ones, twos);
        }
    }

    /// Records every operation on the current card at every number that is an edge.
    fn survey(&mut self) {
        let card = self.record.card();
        let m = u64::from(claimed_count(card));
        let blocks = (card.len() / BLOCK) as u64;
        let mut indices = vec![0, 1, 62, 63, 64, 503, 504, 1 << 32, u64::MAX];
        indices.extend([m.saturating_sub(1), m, m + 1]);
        indices.sort_unstable();
        indices.dedup();
        _ = self.record.admit();
        for &i in &indices {
            _ = self.record.entry(i);
            _ = self.record.step(i);
        }
        let mut indices = vec![0, 1, blocks.saturating_sub(1), blocks, 65_535, 65_536];
        indices.extend([1 << 32, (1 << 55) - 1, 1 << 55, 1 << 63, u64::MAX]);
        indices.sort_unstable();
        indices.dedup();
        for &k in &indices {
            let held = self.record.companion(k);
            assert_eq!(self.record.fetch(k), held.is_ok());
        }
    }
}
