//! Sound and damaged cards for tests, drawn from a seed.
//!
//! Nothing here judges a card: a draft lays out whatever it is given, and
//! damage may by chance leave a card sound. What a card gets is the reader's
//! answer alone.

use crate::block;
use crate::entry::Stored;
use crate::numbers::{
    BLOCK, CHECK_A, CHECK_B, COUNT, ENTRIES_PER_BLOCK, ENTRY, FORM, HEAD_GAP, HEAD_SPARE, INDEX,
    KIND, MOST_ENTRIES, MOST_LETTERS, NO_PLACE, SPAN_WIDTH, THE_FORM, WORD_LENGTH,
};
use crate::profile::Kind;

/// A small generator of numbers (splitmix64): the same seed always draws the same numbers.
#[derive(Clone, Debug)]
pub struct Random(u64);

impl Random {
    /// The generator that starts from this seed.
    pub fn new(seed: u64) -> Random {
        Random(seed)
    }

    /// Draws the next number.
    pub fn draw(&mut self) -> u64 {
        self.0 = self.0.wrapping_add(0x9E37_79B9_7F4A_7C15);
        let mut z = self.0;
        z = (z ^ (z >> 30)).wrapping_mul(0xBF58_476D_1CE4_E5B9);
        z = (z ^ (z >> 27)).wrapping_mul(0x94D0_49BB_1331_11EB);
        z ^ (z >> 31)
    }

    /// Draws a number below n, which is not 0.
    pub fn below(&mut self, n: usize) -> usize {
        (self.draw() % n as u64) as usize
    }

    /// Draws a number from low up to high, both included.
    pub fn between(&mut self, low: usize, high: usize) -> usize {
        low + self.below(high - low + 1)
    }

    /// Says yes once in n times on average.
    pub fn once_in(&mut self, n: usize) -> bool {
        self.below(n) == 0
    }

    /// Draws one of the given values, of which there is at least one.
    pub fn pick<T: Copy>(&mut self, from: &[T]) -> T {
        from[self.below(from.len())]
    }

    /// Draws a byte.
    pub fn byte(&mut self) -> u8 {
        self.draw() as u8
    }

    /// Draws n bytes.
    pub fn bytes(&mut self, n: usize) -> Vec<u8> {
        (0..n).map(|_| self.byte()).collect()
    }
}

/// What a card is to say, sound or not.
#[derive(Clone, Debug)]
pub struct Draft {
    /// The form.
    pub form: u8,
    /// The stored kind.
    pub kind: u8,
    /// The letters of each word.
    pub l: u8,
    /// The number of entries that block 0 claims.
    pub m: u16,
    /// The entries that are laid out.
    pub entries: Vec<Stored>,
}

impl Draft {
    /// A sound card of this kind, l and m, with random words and places.
    pub fn sound(random: &mut Random, kind: Kind, l: u8, m: u16) -> Draft {
        let entries = (0..m).map(|_| sound_entry(random, kind, l, m)).collect();
        Draft {
            form: THE_FORM,
            kind: kind.number(),
            l,
            m,
            entries,
        }
    }

    /// The card's bytes, with right indices and checks.
    pub fn lay_out(&self) -> Vec<u8> {
        let blocks = 1 + self.entries.len().div_ceil(ENTRIES_PER_BLOCK);
        let mut card = vec![0; blocks * BLOCK];
        card[FORM] = self.form;
        card[KIND] = self.kind;
        card[WORD_LENGTH] = self.l;
        card[COUNT..HEAD_SPARE].copy_from_slice(&self.m.to_le_bytes());
        for (i, &stored) in self.entries.iter().enumerate() {
            put_entry(&mut card, i, stored);
        }
        for k in 0..blocks {
            put_index(&mut card, k, k as u16);
        }
        put_all_right(&mut card);
        card
    }
}

/// An entry that is sound on such a card.
fn sound_entry(random: &mut Random, kind: Kind, l: u8, m: u16) -> Stored {
    let words = 1 << (2 * usize::from(l));
    let places = usize::from(m);
    let word = random.below(words) as u32;
    let (one, two) = match kind {
        Kind::Pair if places == 1 || random.once_in(3) => {
            (random.below(places), usize::from(NO_PLACE))
        }
        Kind::Pair => {
            let two = random.between(1, places - 1);
            (random.below(two), two)
        }
        Kind::Span => {
            let width = random.between(1, places.min(usize::from(SPAN_WIDTH)));
            let one = random.between(0, places - width);
            (one, one + width - 1)
        }
    };
    Stored {
        word,
        one: one as u16,
        two: two as u16,
    }
}

/// Where entry i begins on a card.
pub fn entry_start(i: usize) -> usize {
    (1 + i / ENTRIES_PER_BLOCK) * BLOCK + (i % ENTRIES_PER_BLOCK) * ENTRY
}

/// Stores entry i, whose slot is there; the check is left as it was.
pub fn put_entry(card: &mut [u8], i: usize, stored: Stored) {
    card[entry_start(i)..][..ENTRY].copy_from_slice(&stored.to_bytes());
}

/// Stores an index in block k, which is there; the check is left as it was.
pub fn put_index(card: &mut [u8], k: usize, index: u16) {
    let start = k * BLOCK + INDEX;
    card[start..start + 2].copy_from_slice(&index.to_le_bytes());
}

/// Puts the check of block k right, if the whole block is there.
pub fn put_right(card: &mut [u8], k: usize) {
    let (blocks, _rest) = card.as_chunks_mut::<BLOCK>();
    if let Some(block) = blocks.get_mut(k) {
        block::put_check(block);
    }
}

/// Puts the check of every whole block right.
pub fn put_all_right(card: &mut [u8]) {
    for k in 0..card.len() / BLOCK {
        put_right(card, k);
    }
}

/// The m that a card's bytes claim, or 0 where they are not there.
pub fn claimed_count(card: &[u8]) -> u16 {
    match card.get(COUNT..HEAD_SPARE) {
        Some(bytes) => u16::from_le_bytes([bytes[0], bytes[1]]),
        None => 0,
    }
}

/// A random number of entries, often one at an edge, and mostly a small one.
pub fn any_count(random: &mut Random) -> u16 {
    match random.below(16) {
        0..=6 => random.between(1, 12) as u16,
        7..=9 => random.pick(&[1, 2, 8, 9, 61, 62, 63]),
        10..=12 => random.pick(&[64, 65, 125, 126, 127]),
        13..=14 => random.between(1, 200) as u16,
        _ => random.pick(&[252, 253, 441, 442, 503, MOST_ENTRIES]),
    }
}

/// A sound card of random kind, l and m.
pub fn any_sound_card(random: &mut Random) -> Vec<u8> {
    let kind = random.pick(&[Kind::Pair, Kind::Span]);
    let l = random.between(2, usize::from(MOST_LETTERS)) as u8;
    let m = any_count(random);
    Draft::sound(random, kind, l, m).lay_out()
}

/// Random bytes; in three cases of four under a head that helps them past the first tests.
pub fn any_bytes(random: &mut Random) -> Vec<u8> {
    let n = match random.below(3) {
        0 => random.below(4 * BLOCK),
        _ => random.below(5) * BLOCK,
    };
    let mut card = random.bytes(n);
    if card.len() < BLOCK || random.once_in(4) {
        return card;
    }
    if random.once_in(2) {
        let m = (card.len() / BLOCK - 1) * ENTRIES_PER_BLOCK;
        let m = (m as u16).max(1);
        let head = Draft {
            form: THE_FORM,
            kind: random.between(1, 2) as u8,
            l: random.between(2, usize::from(MOST_LETTERS)) as u8,
            m,
            entries: Vec::new(),
        };
        card[..BLOCK].copy_from_slice(&head.lay_out());
    }
    for k in 0..card.len() / BLOCK {
        put_index(&mut card, k, k as u16);
    }
    put_all_right(&mut card);
    card
}

/// Any card: a sound one, one with some faults, or random bytes.
pub fn any_card(random: &mut Random) -> Vec<u8> {
    match random.below(16) {
        0 => any_bytes(random),
        1..=4 => any_sound_card(random),
        _ => {
            let faults = random.between(1, 3);
            let mut card = any_sound_card(random);
            damage(random, &mut card, faults);
            card
        }
    }
}

/// Any number for a block, an entry or a head: mostly one near the card's own numbers.
pub fn any_index(random: &mut Random, card: &[u8]) -> usize {
    let m = usize::from(claimed_count(card));
    let blocks = card.len() / BLOCK;
    match random.below(8) {
        0..=1 => random.below(blocks + 2),
        2..=4 => random.below(m + 2),
        5 => random.pick(&[0, 1, 62, 63, 64, 125, 126, 503, 504]),
        6 => random.pick(&[m.saturating_sub(1), m, m + 1, blocks, 65_535, 65_536]),
        _ => random.pick(&[
            1 << 32,
            (1 << 55) - 1,
            1 << 55,
            (1 << 55) + 1,
            1 << 63,
            usize::MAX - 1,
            usize::MAX,
        ]),
    }
}

/// Damages a whole card of at least two blocks in this many ways at once.
///
/// What the card says is spoilt first; then the checks are mostly put right,
/// so that the deeper rules are reached; then the checks and the card's length
/// are spoilt, where the faults drawn say so.
pub fn damage(random: &mut Random, card: &mut Vec<u8>, faults: usize) {
    let mut in_checks = 0;
    let mut in_length = 0;
    for _ in 0..faults {
        match random.below(8) {
            0 => in_checks += 1,
            1 => in_length += 1,
            _ => spoil_what_it_says(random, card),
        }
    }
    match random.below(6) {
        0 => {}
        1 => {
            let k = random.below(card.len() / BLOCK);
            put_right(card, k);
        }
        _ => put_all_right(card),
    }
    for _ in 0..in_checks {
        spoil_a_check(random, card);
    }
    for _ in 0..in_length {
        spoil_the_length(random, card);
    }
}

/// Spoils one field, spare byte or index of a whole card of at least two blocks.
pub fn spoil_what_it_says(random: &mut Random, card: &mut [u8]) {
    let blocks = card.len() / BLOCK;
    let slots = (blocks - 1) * ENTRIES_PER_BLOCK;
    let m = claimed_count(card);
    let k = random.below(blocks);
    let later = random.between(1, blocks - 1);
    // Mostly an entry that the card claims, now and then a slot that it does not use.
    let i = random.below(slots.min(usize::from(m) + 1));
    let one = entry_start(i) + 4;
    let two = entry_start(i) + 6;
    match random.below(18) {
        0 => card[FORM] = random.pick(&[0, 2, 3, 255]),
        1 => card[KIND] = random.pick(&[0, 1, 2, 3, 255]),
        2 => card[WORD_LENGTH] = random.pick(&[0, 1, 2, 12, 13, 255]),
        3 => {
            let drawn = random.draw() as u16;
            let near = [m.wrapping_sub(1), m.wrapping_add(1), m.wrapping_add(63)];
            let far = [0, MOST_ENTRIES + 1, 65_535, drawn];
            let claimed = match random.below(2) {
                0 => random.pick(&near),
                _ => random.pick(&far),
            };
            card[COUNT..HEAD_SPARE].copy_from_slice(&claimed.to_le_bytes());
        }
        4 => {
            let middle = random.between(HEAD_SPARE, INDEX - 1);
            let spare = random.pick(&[HEAD_GAP, HEAD_SPARE, INDEX - 1, middle]);
            card[spare] = random.between(1, 255) as u8;
        }
        5 => {
            let drawn = random.draw() as u16;
            let near = [k.wrapping_sub(1) as u16, k as u16 + 1, k as u16 + 256];
            let index = match random.below(2) {
                0 => random.pick(&near),
                _ => drawn,
            };
            put_index(card, k, index);
        }
        6 => card[entry_start(i) + random.below(4)] = random.byte(),
        7 => {
            let l = u32::from(card[WORD_LENGTH].clamp(2, MOST_LETTERS));
            let edge = 1u32 << (2 * l);
            let high = edge | 0x8000_0000;
            let word = random.pick(&[edge - 1, edge, edge + 1, high, u32::MAX]);
            card[entry_start(i)..one].copy_from_slice(&word.to_le_bytes());
        }
        8..=10 => {
            let drawn = random.draw() as u16;
            let edges = [m.wrapping_sub(1), m, m.wrapping_add(1), 0, NO_PLACE, drawn];
            let at = random.pick(&[one, two]);
            card[at..at + 2].copy_from_slice(&random.pick(&edges).to_le_bytes());
        }
        11 => {
            let place = [card[one], card[one + 1]];
            card.copy_within(two..two + 2, one);
            card[two..two + 2].copy_from_slice(&place);
        }
        12 => card.copy_within(one..one + 2, two),
        13 => {
            let place = u16::from_le_bytes([card[one], card[one + 1]]);
            let width = random.pick(&[SPAN_WIDTH - 1, SPAN_WIDTH]);
            let wide = place.wrapping_add(width);
            card[two..two + 2].copy_from_slice(&wide.to_le_bytes());
        }
        14 => {
            let start = entry_start(usize::from(m).min(slots - 1));
            card[start + random.below(ENTRY)] = random.between(1, 255) as u8;
        }
        15 => {
            let spare = ENTRIES_PER_BLOCK * ENTRY + random.below(4);
            card[later * BLOCK + spare] = random.between(1, 255) as u8;
        }
        16 => {
            let at = random.below(card.len());
            // These two bytes sum alike, so that the check holds all the same.
            card[at] = if card[at] == 0 { 255 } else { 0 };
        }
        _ => {
            let (before, after) = card.split_at_mut(later * BLOCK);
            let other = random.below(later);
            before[other * BLOCK..(other + 1) * BLOCK].swap_with_slice(&mut after[..BLOCK]);
        }
    }
}

/// Spoils a check byte, or a byte under the check, of a whole card.
pub fn spoil_a_check(random: &mut Random, card: &mut [u8]) {
    let start = random.below(card.len() / BLOCK) * BLOCK;
    let check = start + random.pick(&[CHECK_A, CHECK_B]);
    match random.below(4) {
        0 => card[check] = 255,
        1 => card[check] ^= 1 << random.below(8),
        2 => card[check] = random.byte(),
        _ => card[start + random.below(CHECK_A)] = random.byte(),
    }
}

/// Cuts a card or adds bytes after it.
pub fn spoil_the_length(random: &mut Random, card: &mut Vec<u8>) {
    let n = card.len();
    match random.below(9) {
        0 => card.truncate(n.saturating_sub(1)),
        1 => card.truncate(n.saturating_sub(BLOCK)),
        2 => card.truncate(random.below(n + 1)),
        3 => card.truncate(random.pick(&[0, 1, BLOCK - 1, BLOCK, BLOCK + 1])),
        4 => card.push(0),
        5 => card.push(random.byte()),
        6 => card.resize(n + BLOCK, 0),
        7 => card.extend_from_slice(&random.bytes(BLOCK)),
        _ => {
            // A further block that is sound by itself.
            let k = n / BLOCK;
            card.truncate(k * BLOCK);
            card.resize((k + 1) * BLOCK, 0);
            put_index(card, k, k as u16);
            put_right(card, k);
        }
    }
}
