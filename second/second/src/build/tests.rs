//! Tests of building from a card.

use super::*;
use crate::cards::{any_card, Draft, Random};
use crate::examples::{plain, s1};
use crate::for_builds::any_sound_lists;
use crate::letters::codes;
use crate::spans::words_in;
use crate::tables::tables;

/// What every byte of an output holds before the call.
const BEFORE: u8 = 165;

/// An answer with the output after it.
type Outcome = (Result<Built, Refusal>, Vec<u8>);

/// What a build with this budget and room comes to.
fn built(card: &[u8], budget: u32, room: usize) -> Outcome {
    let mut out = vec![BEFORE; room];
    let answer = build(card, budget, &mut out);
    (answer, out)
}

/// What must come of this verdict, after these placements and with this sequence.
fn expected(verdict: Verdict, placements: u32, sequence: &str, room: usize) -> Outcome {
    let answer = Built {
        verdict,
        length: sequence.len(),
        placements,
    };
    let mut out = sequence.as_bytes().to_vec();
    out.resize(room, BEFORE);
    (Ok(answer), out)
}

/// Holds the card to this refusal at any budget and room, with nothing touched.
fn hold_refused(card: &[u8], refusal: Refusal) {
    for (budget, room) in [(0, 0), (0, 600), (7, 5), (u32::MAX, 600)] {
        let wanted = (Err(refusal), vec![BEFORE; room]);
        assert_eq!(built(card, budget, room), wanted, "room {room}");
    }
}

#[test]
fn the_twelve_tables() {
    for table in tables() {
        let card = table.lists.card().expect("a sound table");
        // Words of two letters: m+1 letters.
        let need = table.lists.words.len() + 1;
        assert_eq!(table.lists.build_length(), need);
        for budget in (0..12).chain([1000, 1_000_000, u32::MAX]) {
            for room in [need, need + 1, need + 9] {
                let wanted = if budget < table.placements {
                    expected(Verdict::Unsettled, budget, "", room)
                } else {
                    expected(table.verdict, table.placements, table.sequence, room)
                };
                assert_eq!(built(&card, budget, room), wanted, "{}", table.name);
            }
            for room in 0..need {
                let wanted = (Err(Reason::Room.at(0)), vec![BEFORE; room]);
                assert_eq!(built(&card, budget, room), wanted, "{}", table.name);
            }
        }
    }
}

#[test]
fn the_s1_card_at_budget_7() {
    let unsettled = expected(Verdict::Unsettled, 7, "", 5);
    assert_eq!(built(&s1(), 7, 5), unsettled);
    let several = expected(Verdict::Several, 8, "ACAGA", 5);
    assert_eq!(built(&s1(), 8, 5), several);
    // Too little room is refused, though the budget would not settle.
    assert_eq!(built(&s1(), 7, 4).0, Err(Reason::Room.at(0)));
}

#[test]
fn the_longest_words_and_cards() {
    // One entry of twelve letters has twelve, and each further entry one more.
    for kind in [Kind::Pair, Kind::Span] {
        let card = plain(kind, 12, 1).lay_out();
        let placements = match kind {
            Kind::Pair => 0,
            Kind::Span => 1,
        };
        let sole = expected(Verdict::Sole, placements, "AAAAAAAAAAAA", 12);
        assert_eq!(built(&card, 1, 12), sole);
        assert_eq!(built(&card, 1, 11).0, Err(Reason::Room.at(0)));

        let mut full = plain(kind, 12, 504);
        for (place, entry) in (0..).zip(&mut full.entries) {
            entry.one = place;
            if kind == Kind::Span {
                entry.two = place;
            }
        }
        let placements = 504 * placements;
        let sole = expected(Verdict::Sole, placements, &"A".repeat(515), 515);
        assert_eq!(built(&full.lay_out(), 504, 515), sole);
        assert_eq!(built(&full.lay_out(), 504, 514).0, Err(Reason::Room.at(0)));
    }
}

#[test]
fn the_edges_of_the_numbers() {
    for kind in [Kind::Pair, Kind::Span] {
        for l in [1, 13] {
            hold_refused(&plain(kind, l, 1).lay_out(), Reason::WordLength.at(0));
        }
        for m in [0, 505] {
            hold_refused(&plain(kind, 3, m).lay_out(), Reason::Count.at(0));
        }
        for (l, m) in [(2, 1), (12, 1), (3, 504)] {
            let (answer, _) = built(&plain(kind, l, m).lay_out(), 1, 600);
            assert!(answer.is_ok(), "{answer:?}");
        }
    }
    let mut span = plain(Kind::Span, 3, 100);
    for (one, two, passes) in [
        (99, 99, true),
        (99, 100, false),
        (10, 17, true),
        (10, 18, false),
    ] {
        (span.entries[50].one, span.entries[50].two) = (one, two);
        match passes {
            // Place 0 alone is left to the other entries, of which there are many.
            true => {
                let none = expected(Verdict::None, 0, "", 102);
                assert_eq!(built(&span.lay_out(), 0, 102), none);
            }
            false => hold_refused(&span.lay_out(), Reason::Places.at(50)),
        }
    }
}

#[test]
fn every_refusal_of_the_reader_comes_before_12() {
    let mut random = Random::new(1);
    let mut refused = [0; 12];
    for _ in 0..4000 {
        let card = any_card(&mut random);
        if let Err(refusal) = reader::admit(&card) {
            refused[usize::from(refusal.number())] += 1;
            hold_refused(&card, refusal);
        }
    }
    // Each number from 1 to 11 came.
    assert!(refused[1..].iter().all(|&cards| cards > 5), "{refused:?}");
}

#[test]
fn the_refusals_in_order() {
    let sound = Draft::sound(&mut Random::new(2), Kind::Span, 3, 64);
    let mut faulty = sound.clone();
    faulty.entries[63].word = 64;
    hold_refused(&faulty.lay_out(), Reason::Word.at(63));
    faulty.entries[0].one = 64;
    hold_refused(&faulty.lay_out(), Reason::Places.at(0));
    let mut card = faulty.lay_out();
    card[512] ^= 1;
    hold_refused(&card, Reason::Check.at(1));
    card.push(0);
    hold_refused(&card, Reason::Size.at(0));
    faulty.m = 505;
    hold_refused(&faulty.lay_out(), Reason::Count.at(0));
    faulty.l = 13;
    hold_refused(&faulty.lay_out(), Reason::WordLength.at(0));
    faulty.kind = 3;
    hold_refused(&faulty.lay_out(), Reason::Kind.at(0));
    faulty.form = 2;
    hold_refused(&faulty.lay_out(), Reason::Form.at(0));
    let mut card = faulty.lay_out();
    card[510] ^= 1;
    hold_refused(&card, Reason::Check.at(0));
    hold_refused(&card[..511], Reason::Short.at(0));
    hold_refused(&[], Reason::Short.at(0));
    let (answer, _) = built(&sound.lay_out(), 9, 65);
    assert_eq!(answer, Err(Reason::Room.at(0)));
    assert!(built(&sound.lay_out(), 9, 66).0.is_ok());
}

#[test]
fn a_sequence_has_the_words_of_the_card() {
    let mut random = Random::new(3);
    let mut sequences = 0;
    for _ in 0..3000 {
        let lists = any_sound_lists(&mut random);
        let card = lists.card().expect("sound lists");
        let (answer, out) = built(&card, 300, 600);
        let length = answer.expect("a sound card").length;
        if length == 0 {
            assert_eq!(out, [BEFORE; 600]);
            continue;
        }
        sequences += 1;
        let (letters, later) = out.split_at(length);
        assert!(later.iter().all(|&byte| byte == BEFORE));
        let mut words = words_in(&codes(letters).expect("letters"), lists.l);
        let mut given = lists.words.clone();
        words.sort_unstable();
        given.sort_unstable();
        assert_eq!(words, given);
    }
    assert!(sequences > 1000, "{sequences}");
}
