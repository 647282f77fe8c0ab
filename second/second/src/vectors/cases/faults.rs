//! One fault at a time, and the edges beside it that pass.

use super::{Cases, KINDS};
use crate::cards::{entry_start, put_all_right, put_entry, put_index, put_right, Draft};
use crate::check;
use crate::entry::Stored;
use crate::numbers::{BLOCK, CHECK_A, CHECK_B, MOST_ENTRIES, NO_PLACE};
use crate::profile::Kind;

impl Cases {
    /// Short, cut and over-long input.
    pub(super) fn lengths(&mut self) {
        for m in [1, 5, 63, 64, 504] {
            for kind in KINDS {
                let card = self.sound(kind, 5, m);
                let n = card.len();
                for cut in [0, 1, 5, 511] {
                    self.refused(&card[..cut], 1, 0);
                    if m == 5 {
                        self.survey();
                    }
                }
                for cut in [512, 513, n - BLOCK, n - 1] {
                    self.refused(&card[..cut], 9, 0);
                    if m == 5 {
                        self.survey();
                    }
                }
                let mut long = card.clone();
                for byte in [0, 1, 255] {
                    long.truncate(n);
                    long.push(byte);
                    self.refused(&long, 9, 0);
                }
                self.survey();
                long.truncate(n);
                long.resize(n + BLOCK, 0);
                self.refused(&long, 9, 0);
                put_index(&mut long, n / BLOCK, (n / BLOCK) as u16);
                put_right(&mut long, n / BLOCK);
                self.refused(&long, 9, 0);
                self.survey();
                // Damage in a later block does not show while the size is wrong.
                long[BLOCK] ^= 1;
                self.refused(&long, 9, 0);
            }
        }
        // A count that asks for one block more or fewer than there are.
        for kind in KINDS {
            for (m, claimed) in [(63, 64), (64, 63), (126, 127), (127, 126), (1, 504)] {
                let mut card = self.sound(kind, 5, m);
                card[4..6].copy_from_slice(&u16::to_le_bytes(claimed));
                put_right(&mut card, 0);
                self.refused(&card, 9, 0);
            }
        }
    }

    /// Everything that block 0 says, at its edges.
    pub(super) fn heads(&mut self) {
        for kind in KINDS {
            for (field, values, number) in [
                (0, &[0, 2, 3, 254, 255], 4),
                (1, &[0, 3, 4, 254, 255], 5),
                (2, &[0, 1, 13, 14, 255], 6),
            ] {
                for &value in values {
                    let mut card = self.sound(kind, 6, 9);
                    card[field] = value;
                    self.refused(&card, 2, 0);
                    put_right(&mut card, 0);
                    self.refused(&card, number, 0);
                }
                self.survey();
            }
            for l in 2..=12 {
                let card = self.sound(kind, l, 7);
                self.admitted(&card);
                self.survey();
            }
            for m in [1, 2, 62, 63, 64, 126, 127, MOST_ENTRIES] {
                let card = self.sound(kind, 4, m);
                self.admitted(&card);
                self.survey();
            }
            for m in [0, 505, 506, 512, 567, 65_534, 65_535] {
                // The blocks that m asks for, or a few where it asks for very many.
                let mut draft = Draft::sound(&mut self.random, kind, 4, m.clamp(1, 567));
                draft.m = m;
                draft.entries.truncate(usize::from(m));
                self.refused(&draft.lay_out(), 7, 0);
                self.survey();
                draft.entries.truncate(3);
                self.refused(&draft.lay_out(), 7, 0);
            }
        }
    }

    /// Checks that do not hold, in each block.
    pub(super) fn checks(&mut self) {
        for kind in KINDS {
            let sound = self.sound(kind, 7, 130);
            for k in 0..sound.len() / BLOCK {
                let start = k * BLOCK;
                for check in [start + CHECK_A, start + CHECK_B] {
                    let mut card = sound.clone();
                    card[check] = card[check].wrapping_add(1);
                    self.refused(&card, 2, k);
                    card[check] ^= 0x80;
                    self.refused(&card, 2, k);
                }
                for at in [0, 5, 100, 503, 504, 507, 508, 509] {
                    let mut card = sound.clone();
                    card[start + at] = card[start + at].wrapping_add(1);
                    // From 255 to 0 is the one step that the sums do not see.
                    if card[start + at] != 0 {
                        self.refused(&card, 2, k);
                    }
                }
                let mut card = sound.clone();
                card.swap(start + CHECK_A, start + CHECK_B);
                if card != sound {
                    self.refused(&card, 2, k);
                }
                self.survey();
            }
            // All bytes 255: both sums are 0, and a stored 255 is not 0.
            self.refused(&[255; BLOCK], 2, 0);
            self.refused(&[255; 2 * BLOCK], 2, 0);
            // All zeros: check and index hold, and the form is wrong.
            self.refused(&[0; BLOCK], 4, 0);
            self.refused(&[0; 3 * BLOCK], 4, 0);
            self.survey();
        }
        // The middle and the end of a full card.
        for k in [4, 8] {
            let mut card = self.sound(Kind::Span, 7, 504);
            card[k * BLOCK + 509] = 1;
            self.refused(&card, 2, k);
            put_right(&mut card, k);
            self.refused(&card, 3, k);
        }
        let mut card = vec![0; BLOCK];
        card[0] = 1;
        self.refused(&card, 2, 0);
        card[CHECK_A] = 1;
        self.refused(&card, 5, 0);
        card[CHECK_B] = 255;
        self.refused(&card, 2, 0);
    }

    /// Cards with a sum of 0 in some block: 255 in its place is not the same.
    pub(super) fn zero_sums(&mut self) {
        for check in [CHECK_A, CHECK_B] {
            for k in 0..4 {
                let mut card = loop {
                    let kind = self.random.pick(&KINDS);
                    let l = self.random.between(2, 12) as u8;
                    let m = self.random.between(127, 252) as u16;
                    let card = self.sound(kind, l, m);
                    let sums = check::sums(&card[k * BLOCK..k * BLOCK + CHECK_A]);
                    let sum = if check == CHECK_A { sums.a } else { sums.b };
                    if sum == 0 {
                        break card;
                    }
                };
                self.admitted(&card);
                card[k * BLOCK + check] = 255;
                self.refused(&card, 2, k);
                self.survey();
            }
        }
    }

    /// Blocks full of a large byte, with a right check and with a wrong one: without remainders
    /// no sums are larger than those of 255.
    pub(super) fn large_sums(&mut self) {
        for byte in [255, 254, 253, 128] {
            let mut card = vec![byte; BLOCK];
            put_right(&mut card, 0);
            self.refused(&card, 3, 0);
            put_index(&mut card, 0, 0);
            put_right(&mut card, 0);
            self.refused(&card, 4, 0);
            for check in [CHECK_A, CHECK_B] {
                let right = card[check];
                for wrong in [right ^ 1, right ^ 0x80, 255] {
                    card[check] = wrong;
                    self.refused(&card, 2, 0);
                }
                card[check] = right;
            }
        }
    }

    /// Indices that do not hold, in each block.
    pub(super) fn indices(&mut self) {
        for kind in KINDS {
            let sound = self.sound(kind, 8, 130);
            let blocks = sound.len() / BLOCK;
            for k in 0..blocks {
                let own = k as u16;
                let wrong = [own + 1, own.wrapping_sub(1), own + 256, own << 8 | 1 << 15];
                for index in wrong {
                    let mut card = sound.clone();
                    put_index(&mut card, k, index);
                    if index != NO_PLACE {
                        self.refused(&card, 2, k);
                    }
                    put_right(&mut card, k);
                    self.refused(&card, 3, k);
                }
                self.survey();
            }
            // Two bytes of 255 sum like the two zeros of block 0's index.
            let mut card = sound.clone();
            put_index(&mut card, 0, 65_535);
            self.refused(&card, 3, 0);
            self.survey();
            for (k, other) in [(0, 1), (1, 2), (1, 3), (2, 3)] {
                let mut card = sound.clone();
                card[k * BLOCK..][..BLOCK].copy_from_slice(&sound[other * BLOCK..][..BLOCK]);
                self.refused(&card, 3, k);
                card[other * BLOCK..][..BLOCK].copy_from_slice(&sound[k * BLOCK..][..BLOCK]);
                self.refused(&card, 3, k);
            }
        }
    }

    /// Words at their limit for each l, and at several entries.
    pub(super) fn words(&mut self) {
        for kind in KINDS {
            for l in 2..=12 {
                let limit = 1u32 << (2 * l);
                let mut draft = Draft::sound(&mut self.random, kind, l as u8, 5);
                draft.entries[0].word = limit - 1;
                draft.entries[4].word = limit - 1;
                self.admitted(&draft.lay_out());
                _ = self.record.entry(0);
                _ = self.record.step(4);
                let i = self.random.below(5);
                let word = draft.entries[i].word;
                let wrong = [
                    limit,
                    limit + 1,
                    word | 1 << 31,
                    word | 1 << 24,
                    limit << 1,
                    u32::MAX,
                ];
                for word in wrong {
                    let mut draft = draft.clone();
                    draft.entries[i].word = word;
                    self.refused(&draft.lay_out(), 10, i);
                }
            }
            // Each byte of the word that is too high for two letters.
            for byte in 1..4 {
                for value in [1, 128, 255] {
                    let mut card = self.sound(kind, 2, 3);
                    card[entry_start(1) + byte] = value;
                    if value != 255 {
                        self.refused(&card, 2, 1);
                        put_right(&mut card, 1);
                    }
                    self.refused(&card, 10, 1);
                }
            }
            for (m, entries) in [
                (127, &[0, 1, 61, 62, 63, 64, 125, 126][..]),
                (504, &[0, 62, 63, 64, 251, 252, 440, 441, 503]),
            ] {
                let sound = Draft::sound(&mut self.random, kind, 9, m);
                for &i in entries {
                    let mut draft = sound.clone();
                    draft.entries[i].word = 1 << 18;
                    self.refused(&draft.lay_out(), 10, i);
                    if m != MOST_ENTRIES || i == 503 {
                        draft.entries[i].word -= 1;
                        self.admitted(&draft.lay_out());
                        _ = self.record.entry(i as u64);
                    }
                }
            }
        }
    }

    /// Places at their limits, for several counts and at several entries.
    pub(super) fn places(&mut self) {
        for (m, entries) in [
            (1, &[0][..]),
            (2, &[0, 1]),
            (9, &[0, 8]),
            (63, &[62]),
            (64, &[62, 63]),
            (127, &[0, 62, 63, 126]),
            (504, &[0, 62, 63, 64, 503]),
        ] {
            for kind in KINDS {
                let sound = self.sound(kind, 10, m);
                for &i in entries {
                    for (one, two, allowed) in edge_places(kind, m) {
                        // Full cards are long, so that only some of their edges are kept.
                        if m == MOST_ENTRIES && !self.random.once_in(5) {
                            continue;
                        }
                        let mut card = sound.clone();
                        let word = self.random.below(1 << 20) as u32;
                        put_entry(&mut card, i, Stored { word, one, two });
                        put_all_right(&mut card);
                        if allowed {
                            self.admitted(&card);
                            _ = self.record.entry(i as u64);
                            _ = self.record.step(i as u64);
                        } else {
                            self.refused(&card, 11, i);
                        }
                    }
                }
            }
        }
    }

    /// Each region of spare bytes.
    pub(super) fn spares(&mut self) {
        for kind in KINDS {
            for at in [3, 6, 7, 8, 255, 256, 506, 507] {
                for value in [1, 128, 255] {
                    let mut card = self.sound(kind, 11, 2);
                    card[at] = value;
                    if value != 255 {
                        self.refused(&card, 2, 0);
                        put_right(&mut card, 0);
                    }
                    // 255 in place of 0 does not show in the sums.
                    self.refused(&card, 8, 0);
                }
            }
            for m in [1, 61, 62, 63, 64, 126, 127, 504] {
                let sound = self.sound(kind, 11, m);
                for k in 1..sound.len() / BLOCK {
                    // The full blocks of a full card are alike, so that the last is enough.
                    if m == MOST_ENTRIES && k != 8 {
                        continue;
                    }
                    let used = 63.min(usize::from(m) - 63 * (k - 1)) * 8;
                    let middle = self.random.between(used, 507);
                    for at in [used, used + 7, middle, 503, 504, 505, 506, 507] {
                        if at < used || at > 507 {
                            continue;
                        }
                        let mut card = sound.clone();
                        card[k * BLOCK + at] = self.random.pick(&[1, 2, 128, 254]);
                        put_right(&mut card, k);
                        self.refused(&card, 8, k);
                        if self.random.once_in(4) {
                            // 255 in place of 0 needs no new check.
                            let mut card = sound.clone();
                            card[k * BLOCK + at] = 255;
                            self.refused(&card, 8, k);
                        }
                    }
                }
            }
        }
    }
}

/// Places one and two at their limits on such a card, and whether they are allowed.
pub(super) fn edge_places(kind: Kind, m: u16) -> Vec<(u16, u16, bool)> {
    let last = m - 1;
    let mut edges = vec![
        (NO_PLACE, NO_PLACE, false),
        (NO_PLACE, 0, false),
        (NO_PLACE, last, false),
        (m, m, false),
        (m, m + 1, false),
        (last, m, false),
        (m, 0, false),
        (65_534, 65_534, false),
        (65_533, 65_534, false),
        (last, 65_534, false),
    ];
    if m > 1 {
        edges.extend([(last, last - 1, false), (1, 0, false)]);
    }
    match kind {
        Kind::Pair => {
            edges.extend([
                (0, NO_PLACE, true),
                (last, NO_PLACE, true),
                (m, NO_PLACE, false),
                (65_534, NO_PLACE, false),
                (0, 0, false),
                (last, last, false),
            ]);
            if m > 1 {
                edges.extend([(0, last, true), (last - 1, last, true)]);
            }
        }
        Kind::Span => {
            edges.extend([
                (0, 0, true),
                (last, last, true),
                (0, NO_PLACE, false),
                (last, NO_PLACE, false),
                (65_534, NO_PLACE, false),
            ]);
            if m >= 8 {
                edges.extend([(0, 7, true), (m - 8, last, true), (m - 8, m, false)]);
            }
            if m >= 9 {
                edges.extend([(0, 8, false), (m - 9, last, false)]);
            }
            if m >= 20 {
                edges.extend([(7, 14, true), (7, 15, false), (0, last, false)]);
            }
        }
    }
    edges
}
