//! What is refused, and in which order.

use crate::cards::{any_card, Draft, Random};
use crate::count::{count_card, Count};
use crate::examples::{plain, s1};
use crate::known_counts::table;
use crate::lists::{any_lists, Lists};
use crate::numbers::NO_PLACE;
use crate::profile::Kind;
use crate::reader;
use crate::refusal::{Reason, Refusal};

/// What must come of a card or lists that the reader's or the lists' tests give this kind or this refusal.
fn wanted(admitted: Result<Kind, Refusal>) -> Option<Refusal> {
    match admitted {
        Ok(Kind::Pair) => None,
        Ok(Kind::Span) => Some(Reason::Kind.at(0)),
        Err(refusal) => Some(refusal),
    }
}

/// Holds the lists to this refusal.
fn hold_refused(lists: &Lists, refusal: Refusal) {
    assert_eq!(lists.count(), Err(refusal), "{lists:?}");
}

/// Whatever the reader refuses a count refuses in the same way, and span cards after it.
///
/// The expected refusal is the reader's own, by which a count goes too: that
/// it is the right one is for the tests of the reader, and for the cards below
/// and of `make_calls` whose refusal is stated.
#[test]
fn every_refusal_of_the_reader() {
    let mut random = Random::new(51);
    let mut refused = [0; 12];
    let mut spans = 0;
    for _ in 0..4000 {
        let card = any_card(&mut random);
        let admitted = reader::admit(&card).map(|profile| profile.kind);
        assert_eq!(count_card(&card).err(), wanted(admitted));
        match admitted {
            Err(refusal) => refused[usize::from(refusal.number())] += 1,
            Ok(kind) => spans += usize::from(kind == Kind::Span),
        }
    }
    // Each number from 1 to 11 came, and many cards were sound span cards.
    assert!(refused[1..].iter().all(|&cards| cards > 5), "{refused:?}");
    assert!(spans > 100, "{spans}");
}

/// Whatever the writer refuses a count refuses in the same way, and lists of span cards after it.
///
/// The expected refusal is the writer's own, and both share the tests of
/// lists: that it is the right one is for the tests of the writer, and for the
/// lists below and of `make_calls` whose refusal is stated.
#[test]
fn every_refusal_of_the_lists() {
    let mut random = Random::new(52);
    let mut refused = [0; 14];
    let mut spans = 0;
    for _ in 0..6000 {
        let lists = any_lists(&mut random);
        // The writer tests the same, and then the room, of which it has enough here.
        let admitted = lists.card().map(|_| match lists.kind {
            1 => Kind::Pair,
            _ => Kind::Span,
        });
        assert_eq!(lists.count().err(), wanted(admitted), "{lists:?}");
        match admitted {
            Err(refusal) => refused[usize::from(refusal.number())] += 1,
            Ok(kind) => spans += usize::from(kind == Kind::Span),
        }
    }
    for number in [5, 6, 7, 10, 11, 13] {
        assert!(refused[number] > 5, "{number}: {refused:?}");
    }
    assert!(spans > 100, "{spans}");
}

#[test]
fn a_span_card_is_read_to_its_end_first() {
    assert_eq!(count_card(&s1()), Err(Reason::Kind.at(0)));
    assert_eq!(count_card(&s1()[..511]), Err(Reason::Short.at(0)));
    assert_eq!(count_card(&s1()[..1023]), Err(Reason::Size.at(0)));
    let sound = Draft::sound(&mut Random::new(53), Kind::Span, 3, 64);
    assert_eq!(count_card(&sound.lay_out()), Err(Reason::Kind.at(0)));
    let mut faulty = sound;
    faulty.entries[63].one = 64;
    assert_eq!(count_card(&faulty.lay_out()), Err(Reason::Places.at(63)));
    faulty.entries[63].word = 64;
    assert_eq!(count_card(&faulty.lay_out()), Err(Reason::Word.at(63)));
    let mut card = faulty.lay_out();
    card[2 * 512 + 511] ^= 1;
    assert_eq!(count_card(&card), Err(Reason::Check.at(2)));
    faulty.m = 505;
    assert_eq!(count_card(&faulty.lay_out()), Err(Reason::Count.at(0)));
    faulty.l = 1;
    assert_eq!(count_card(&faulty.lay_out()), Err(Reason::WordLength.at(0)));
}

#[test]
fn the_order_of_the_lists() {
    // On lists of a span card each fault comes before the 5 for the kind.
    for kind in [Kind::Pair, Kind::Span] {
        let mut lists = Lists::of_draft(&plain(kind, 2, 3));
        lists.ones[2] = 3;
        hold_refused(&lists, Reason::Places.at(2));
        lists.words[2] = 16;
        hold_refused(&lists, Reason::Word.at(2));
        lists.ones[1] = NO_PLACE;
        hold_refused(&lists, Reason::Places.at(1));
        lists.resize(505, 505, 505);
        hold_refused(&lists, Reason::Count.at(0));
        for (words, ones, twos) in [(505, 505, 504), (505, 504, 505), (504, 505, 505)] {
            lists.resize(words, ones, twos);
            hold_refused(&lists, Reason::Lists.at(0));
        }
        for l in [0, 1, 13, 258] {
            lists.l = l;
            hold_refused(&lists, Reason::WordLength.at(0));
        }
        for number in [0, 3, 257, 258, usize::MAX] {
            lists.kind = number;
            hold_refused(&lists, Reason::Kind.at(0));
        }
    }
}

#[test]
fn the_edges_of_the_lists() {
    for (kind, at_edge) in [
        (Kind::Pair, Ok(Count::None)),
        (Kind::Span, Err(Reason::Kind.at(0))),
    ] {
        for (l, m) in [(2, 2), (12, 2), (2, 504)] {
            // All entries may stand at place 0 alone, so that there is no build.
            let lists = Lists::of_draft(&plain(kind, l, m));
            assert_eq!(lists.count(), at_edge);
        }
        for m in [0, 505] {
            let lists = Lists::of_draft(&plain(kind, 2, m));
            hold_refused(&lists, Reason::Count.at(0));
        }
        for (words, ones, twos) in [(0, 0, 1), (0, 1, 0), (1, 0, 0), (3, 2, 2), (2, 3, 3)] {
            let mut lists = Lists::of_draft(&plain(kind, 2, 2));
            lists.resize(words, ones, twos);
            hold_refused(&lists, Reason::Lists.at(0));
        }
    }
}

#[test]
fn p1_as_lists_of_another_kind() {
    let mut lists = table("P1");
    lists.kind = 2;
    hold_refused(&lists, Reason::Kind.at(0));
    lists.words[3] = 16;
    hold_refused(&lists, Reason::Word.at(3));
    for kind in [0, 3] {
        lists.kind = kind;
        hold_refused(&lists, Reason::Kind.at(0));
    }
}
