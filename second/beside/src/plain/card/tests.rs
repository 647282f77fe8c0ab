//! Holds the cards in C to the answers of `second`.

use std::collections::BTreeSet;

use second::cards::{any_card, any_index, any_sound_card, put_right, Draft, Random};
use second::lists::{any_lists, any_room, any_sound_lists, odd_numbers, Lists};
use second::numbers::{BLOCK, CHECK_A, MOST_ENTRIES};
use second::profile::Kind;

use super::{admit, companion, write};
use crate::answers::Held;
use crate::independent;
use crate::writers::written_by;

/// What every byte of an output holds before the call.
const BEFORE: u8 = 165;
/// The bytes after an output, which are not lent.
const GUARD: usize = 64;

/// Holds what C admits to `second`, and gives the number that came.
fn hold_admit(card: &[u8]) -> usize {
    let by_second = independent::admit(card);
    assert_eq!(admit(card), by_second, "{card:?}");
    by_second.number
}

/// Holds the companion in C to `second`, and gives the number that came.
fn hold_companion(card: &[u8], k: usize) -> usize {
    let by_second = independent::companion(card, k);
    assert_eq!(companion(card, k), by_second, "block {k} of {card:?}");
    by_second.number
}

/// Holds what C writes to `second`, byte for byte and beyond the room, and gives the number that came.
fn hold_write(lists: &Lists, room: usize) -> usize {
    let [mut by_c, mut by_second] = [BEFORE; 2].map(|byte| vec![byte; room + GUARD]);
    let c = written_by(write, lists, &mut by_c[..room]);
    let second = written_by(independent::write, lists, &mut by_second[..room]);
    assert_eq!((c, by_c), (second, by_second), "room {room}, {lists:?}");
    second.number
}

#[test]
fn any_cards_are_admitted_alike() {
    let mut random = Random::new(1);
    let mut seen = BTreeSet::new();
    for _ in 0..60_000 {
        seen.insert(hold_admit(&any_card(&mut random)));
    }
    assert_eq!(seen, BTreeSet::from_iter(0..=11));
}

#[test]
fn every_byte_of_a_card_is_looked_at() {
    let mut random = Random::new(2);
    let mut seen = BTreeSet::new();
    for (kind, m) in [(Kind::Pair, 5), (Kind::Span, 64), (Kind::Pair, 63)] {
        let card = Draft::sound(&mut random, kind, 7, m).lay_out();
        for at in 0..card.len() {
            let mut changed = card.clone();
            // Only 1 or 255 more can turn 255 into 0 or 0 into 255, which no sum shows.
            changed[at] = changed[at].wrapping_add(random.between(2, 254) as u8);
            assert_eq!(hold_admit(&changed), 2, "byte {at} of {card:?}");
            put_right(&mut changed, at / BLOCK);
            seen.insert(hold_admit(&changed));
        }
    }
    assert_eq!(seen, BTreeSet::from([0, 3, 4, 5, 6, 7, 8, 9, 10, 11]));
}

#[test]
fn any_blocks_hold_alike() {
    let mut random = Random::new(3);
    let mut seen = BTreeSet::new();
    for _ in 0..30_000 {
        let card = any_card(&mut random);
        for k in 0..=card.len() / BLOCK {
            seen.insert(hold_companion(&card, k));
        }
        hold_companion(&card, any_index(&mut random, &card));
    }
    assert_eq!(seen, BTreeSet::from([0, 2, 3, 14]));
}

#[test]
fn the_largest_sums() {
    // Both are multiples of 255: 510 times 255, and 33,227,775.
    let mut card = vec![255; 65_536 * BLOCK];
    for block in card.as_chunks_mut::<BLOCK>().0 {
        block[CHECK_A..].fill(0);
    }
    assert_eq!(companion(&card, 65_535), Held::default());
    let refused = |number, place| Held { number, place };
    assert_eq!(companion(&card, 65_534), refused(3, 65_534));
    card[65_535 * BLOCK] = 254;
    assert_eq!(companion(&card, 65_535), refused(2, 65_535));
    // The index has two bytes, so that no later block carries its own.
    card.resize(65_537 * BLOCK, 0);
    assert_eq!(companion(&card, 65_536), refused(3, 65_536));
}

#[test]
fn any_lists_are_written_alike() {
    let mut random = Random::new(4);
    let mut seen = BTreeSet::new();
    for _ in 0..30_000 {
        let lists = any_lists(&mut random);
        let room = any_room(&mut random, &lists);
        seen.insert(hold_write(&lists, room));
    }
    assert_eq!(seen, BTreeSet::from([0, 5, 6, 7, 10, 11, 12, 13]));
}

#[test]
fn kind_and_l_are_taken_whole() {
    let lists = any_sound_lists(&mut Random::new(5));
    let mut seen = BTreeSet::new();
    for number in odd_numbers() {
        let (mut of_kind, mut of_l) = (lists.clone(), lists.clone());
        (of_kind.kind, of_l.l) = (number, number);
        seen.insert(hold_write(&of_kind, of_kind.size()));
        seen.insert(hold_write(&of_l, of_l.size()));
    }
    assert!(seen.is_superset(&BTreeSet::from([0, 5, 6])), "{seen:?}");
}

#[test]
fn cards_of_every_size_come_back() {
    let mut random = Random::new(6);
    for m in 1..=MOST_ENTRIES {
        let kind = random.pick(&[Kind::Pair, Kind::Span]);
        let lists = Lists::sound(&mut random, kind, 12, m);
        assert_eq!(hold_write(&lists, lists.size()), 0);
        assert_eq!(hold_write(&lists, lists.size() - 1), 12);
        assert_eq!(hold_admit(&lists.card().expect("sound lists")), 0);
    }
    for _ in 0..3000 {
        let card = any_sound_card(&mut random);
        assert_eq!(hold_admit(&card), 0);
        let lists = Lists::of_card(&card).expect("a sound card");
        assert_eq!(hold_write(&lists, card.len()), 0);
    }
}
