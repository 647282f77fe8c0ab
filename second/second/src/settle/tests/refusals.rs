//! What is refused, and in which order.

use super::{by_card, by_lists, refused, settled};
use crate::cards::{any_card, Draft, Random};
use crate::examples::{plain, s1};
use crate::known_counts::table;
use crate::lists::{any_lists, Lists};
use crate::narrow::any_narrow;
use crate::numbers::NO_PLACE;
use crate::profile::Kind;
use crate::reader;
use crate::refusal::{Reason, Refusal};

/// A way to spoil what a card says, and the reason that comes of it.
type Spoilt = (fn(&mut Draft), Reason);

/// Holds the card to this refusal at any room.
fn hold_card(card: &[u8], refusal: Refusal) {
    for room in [0, 4, 600] {
        assert_eq!(by_card(card, room), refused(refusal, room));
    }
}

/// Holds the lists to this refusal at any room.
fn hold_lists(lists: &Lists, refusal: Refusal) {
    for room in [0, 4, 600] {
        assert_eq!(by_lists(lists, room), refused(refusal, room), "{lists:?}");
    }
}

/// Holds sound lists and their card to 12 where the output is short, and to this refusal where it is not.
fn hold_after_12(lists: &Lists, refusal: Refusal) {
    let need = lists.build_length();
    for room in [0, 1, need - 1] {
        assert_eq!(settled(lists, room), refused(Reason::Room.at(0), room));
    }
    for room in [need, need + 1, 600] {
        assert_eq!(settled(lists, room), refused(refusal, room), "{lists:?}");
    }
}

/// The refusal of sound lists that have enough room, told from the lists alone.
fn of_sound(lists: &Lists) -> Option<Refusal> {
    let mut places = lists.ones.iter().zip(&lists.twos);
    match lists.kind {
        1 => Some(Reason::Kind.at(0)),
        _ => places
            .position(|(one, two)| two - one > 3)
            .map(|i| Reason::Wider.at(i)),
    }
}

/// Whatever the reader refuses is refused in the same way; then come 12, 5 for pairs, and 30.
#[test]
fn every_refusal_of_the_reader() {
    let mut random = Random::new(91);
    let mut came = [0; 31];
    for _ in 0..4000 {
        let card = any_card(&mut random);
        if let Err(refusal) = reader::admit(&card) {
            came[usize::from(refusal.number())] += 1;
            hold_card(&card, refusal);
            continue;
        }
        let lists = Lists::of_card(&card).expect("a sound card");
        if let Some(refusal) = of_sound(&lists) {
            came[usize::from(refusal.number())] += 1;
            hold_after_12(&lists, refusal);
        }
    }
    for number in (1..=11).chain([30]) {
        assert!(came[number] > 5, "{number}: {came:?}");
    }
}

/// Whatever the writer refuses of lists is refused in the same way; then come 12, 5 for pairs, and 30.
#[test]
fn every_refusal_of_the_lists() {
    let mut random = Random::new(92);
    let mut came = [0; 31];
    for _ in 0..6000 {
        let lists = any_lists(&mut random);
        let refusal = lists.card().err();
        match refusal {
            Some(refusal) => hold_lists(&lists, refusal),
            None => match of_sound(&lists) {
                Some(refusal) => hold_after_12(&lists, refusal),
                None => assert!(settled(&lists, 600).0.is_ok()),
            },
        }
        if let Some(refusal) = refusal.or_else(|| of_sound(&lists)) {
            came[usize::from(refusal.number())] += 1;
        }
    }
    for number in [5, 6, 7, 10, 11, 13, 30] {
        assert!(came[number] > 5, "{number}: {came:?}");
    }
}

#[test]
fn the_first_entry_that_is_wider() {
    let mut random = Random::new(93);
    let mut lists = Lists::of_draft(&plain(Kind::Span, 3, 200));
    (lists.ones[199], lists.twos[199]) = (195, 198);
    assert!(settled(&lists, 600).0.is_ok());
    // From the last entry to the first, with widths from 5 to 8.
    for i in [199, 198, 100, 63, 62, 1, 0] {
        let one = random.below(190) as u16;
        let two = one + 4 + random.below(4) as u16;
        (lists.ones[i], lists.twos[i]) = (one, two);
        hold_after_12(&lists, Reason::Wider.at(i));
    }
    // A place with eight spans over it comes after 30.
    let mut crowd = Lists::of_draft(&plain(Kind::Span, 2, 20));
    (crowd.ones[19], crowd.twos[19]) = (0, 4);
    hold_after_12(&crowd, Reason::Wider.at(19));
}

#[test]
fn a_pair_card_comes_after_12_and_before_30() {
    // The two places are far apart, and on a span card they would be refused.
    let mut pairs = Lists::of_draft(&plain(Kind::Pair, 2, 20));
    (pairs.ones[0], pairs.twos[0]) = (0, 19);
    hold_after_12(&pairs, Reason::Kind.at(0));
    hold_after_12(&table("P1"), Reason::Kind.at(0));
    pairs.words[19] = 16;
    hold_lists(&pairs, Reason::Word.at(19));
}

#[test]
fn a_card_is_read_to_its_end_first() {
    hold_card(&s1()[..511], Reason::Short.at(0));
    hold_card(&s1()[..1023], Reason::Size.at(0));
    // Entry 0 is wider than 4, and each fault comes before that.
    let mut faulty = plain(Kind::Span, 3, 64);
    faulty.entries[0].two = 4;
    assert_eq!(by_card(&faulty.lay_out(), 66).0, Err(Reason::Wider.at(0)));
    assert_eq!(by_card(&faulty.lay_out(), 65).0, Err(Reason::Room.at(0)));
    faulty.entries[63].two = 8;
    hold_card(&faulty.lay_out(), Reason::Places.at(63));
    faulty.entries[63].word = 64;
    hold_card(&faulty.lay_out(), Reason::Word.at(63));
    let mut card = faulty.lay_out();
    card[2 * 512 + 511] ^= 1;
    hold_card(&card, Reason::Check.at(2));
    let heads: [Spoilt; 4] = [
        (|draft| draft.m = 505, Reason::Count),
        (|draft| draft.l = 1, Reason::WordLength),
        (|draft| draft.kind = 3, Reason::Kind),
        (|draft| draft.form = 2, Reason::Form),
    ];
    for (spoil, reason) in heads {
        spoil(&mut faulty);
        hold_card(&faulty.lay_out(), reason.at(0));
    }
}

#[test]
fn the_order_of_the_lists() {
    for kind in [Kind::Pair, Kind::Span] {
        let mut lists = Lists::of_draft(&plain(kind, 2, 5));
        // Wider than 4 on lists of a span card.
        lists.twos[0] = 4;
        lists.ones[4] = 5;
        hold_lists(&lists, Reason::Places.at(4));
        lists.words[4] = 16;
        hold_lists(&lists, Reason::Word.at(4));
        lists.ones[1] = NO_PLACE;
        hold_lists(&lists, Reason::Places.at(1));
        lists.resize(505, 505, 505);
        hold_lists(&lists, Reason::Count.at(0));
        for (words, ones, twos) in [(505, 505, 504), (505, 504, 505), (504, 505, 505)] {
            lists.resize(words, ones, twos);
            hold_lists(&lists, Reason::Lists.at(0));
        }
        for l in [0, 1, 13, 258] {
            lists.l = l;
            hold_lists(&lists, Reason::WordLength.at(0));
        }
        for number in [0, 3, 257, 258, usize::MAX] {
            lists.kind = number;
            hold_lists(&lists, Reason::Kind.at(0));
        }
    }
}

#[test]
fn room_for_each_verdict() {
    let mut random = Random::new(94);
    for _ in 0..300 {
        let lists = any_narrow(&mut random);
        let need = lists.build_length();
        for room in [0, need - 1] {
            assert_eq!(settled(&lists, room), refused(Reason::Room.at(0), room));
        }
        let (exact, letters) = settled(&lists, need);
        let (more, longer) = settled(&lists, need + 7);
        assert_eq!(exact, more);
        assert_eq!(letters, longer[..need]);
    }
}
