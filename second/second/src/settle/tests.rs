//! Tests of settling.

mod refusals;

use super::settle_card;
use crate::build::{build, Built};
use crate::cards::Random;
use crate::examples::plain;
use crate::letters::{codes, spell};
use crate::lists::Lists;
use crate::narrow::{any_narrow, any_widest, late, without_end};
use crate::profile::Kind;
use crate::refusal::{Reason, Refusal};
use crate::report::BUDGET;
use crate::spans::words_in;
use crate::tables::tables;
use crate::verdict::Verdict;

/// What every byte of an output holds before the call.
const BEFORE: u8 = 165;

/// An answer with the output after it.
type Outcome = (Result<Built, Refusal>, Vec<u8>);

/// What settling a card into an output of this room comes to.
fn by_card(card: &[u8], room: usize) -> Outcome {
    let mut out = vec![BEFORE; room];
    let answer = settle_card(card, &mut out);
    (answer, out)
}

/// What settling lists into an output of this room comes to.
fn by_lists(lists: &Lists, room: usize) -> Outcome {
    let mut out = vec![BEFORE; room];
    let answer = lists.settle(&mut out);
    (answer, out)
}

/// What settling sound lists comes to, and their card alike.
fn settled(lists: &Lists, room: usize) -> Outcome {
    let outcome = by_lists(lists, room);
    let card = lists.card().expect("sound lists");
    assert_eq!(by_card(&card, room), outcome, "{lists:?}");
    outcome
}

/// What must come of this verdict with this sequence.
fn expected(verdict: Verdict, sequence: &[u8], room: usize) -> Outcome {
    let answer = Built {
        verdict,
        length: sequence.len(),
        placements: 0,
    };
    let mut out = sequence.to_vec();
    out.resize(room, BEFORE);
    (Ok(answer), out)
}

/// What must come where nothing is touched.
fn refused(refusal: Refusal, room: usize) -> Outcome {
    (Err(refusal), vec![BEFORE; room])
}

#[test]
fn the_twelve_tables() {
    for table in tables() {
        // Words of two letters: m+1 letters.
        let need = table.lists.words.len() + 1;
        for room in [need, need + 1, need + 9] {
            let wanted = match table.lists.kind {
                1 => refused(Reason::Kind.at(0), room),
                _ => expected(table.verdict, table.sequence.as_bytes(), room),
            };
            assert_eq!(settled(&table.lists, room), wanted, "{}", table.name);
        }
        for room in 0..need {
            let wanted = refused(Reason::Room.at(0), room);
            assert_eq!(settled(&table.lists, room), wanted, "{}", table.name);
        }
    }
}

#[test]
fn the_longest_words_and_cards() {
    let one = Lists::of_draft(&plain(Kind::Span, 12, 1));
    let sole = expected(Verdict::Sole, &[b'A'; 12], 12);
    assert_eq!(settled(&one, 12), sole);
    assert_eq!(settled(&one, 11), refused(Reason::Room.at(0), 11));
    let mut full = Lists::of_draft(&plain(Kind::Span, 12, 504));
    full.ones = (0..504).collect();
    full.twos = full.ones.clone();
    let sole = expected(Verdict::Sole, &[b'A'; 515], 600);
    assert_eq!(settled(&full, 600), sole);
    assert_eq!(settled(&full, 514), refused(Reason::Room.at(0), 514));
}

#[test]
fn as_a_build_where_that_settles() {
    let mut random = Random::new(81);
    let mut settles = 0;
    for _ in 0..1500 {
        let lists = match random.below(2) {
            0 => any_narrow(&mut random),
            _ => any_widest(&mut random),
        };
        let outcome = settled(&lists, 600);
        let card = lists.card().expect("sound lists");
        let mut out = vec![BEFORE; 600];
        let built = build(&card, 2000, &mut out).expect("a sound card");
        if built.verdict != Verdict::Unsettled {
            settles += 1;
            let built = Built {
                placements: 0,
                ..built
            };
            assert_eq!(outcome, (Ok(built), out), "{lists:?}");
        }
    }
    assert!(settles > 1000, "{settles}");
}

#[test]
fn one_build_that_the_program_does_not_settle() {
    let (_, lists) = late();
    let card = lists.card().expect("sound lists");
    let mut out = vec![BEFORE; 600];
    let built = build(&card, BUDGET, &mut out).expect("a sound card");
    assert_eq!(built.verdict, Verdict::Unsettled);
    let (_, first) = settled(&lists, lists.build_length());
    assert_eq!(settled(&lists, 600), expected(Verdict::Sole, &first, 600));
    // The whole walk finds the same.
    let words = lists.find(u32::MAX).words;
    assert_eq!(spell(lists.l as u8, &words), first);
}

#[test]
fn where_no_budget_settles() {
    let lists = without_end(&mut Random::new(82), 2, 504);
    let none = expected(Verdict::None, b"", 600);
    assert_eq!(settled(&lists, 600), none);
    let unsettled = lists.find(10_000).verdict;
    assert_eq!(unsettled, Verdict::Unsettled);
}

#[test]
fn a_sequence_has_the_words_of_the_card() {
    let mut random = Random::new(83);
    let mut sequences = 0;
    for _ in 0..1000 {
        let lists = any_narrow(&mut random);
        let (answer, out) = settled(&lists, 600);
        let length = answer.expect("sound narrow lists").length;
        let (letters, later) = out.split_at(length);
        assert!(later.iter().all(|&byte| byte == BEFORE));
        if length > 0 {
            sequences += 1;
            let mut words = words_in(&codes(letters).expect("letters"), lists.l);
            assert_eq!(spell(lists.l as u8, &words), letters);
            let mut given = lists.words.clone();
            words.sort_unstable();
            given.sort_unstable();
            assert_eq!(words, given);
        }
    }
    assert!(sequences > 400, "{sequences}");
}
