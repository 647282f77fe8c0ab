//! Tests of neighbouring places: the pair lists and the span lists have the same builds.

use super::{any_near, any_neighbours, are_near, as_spans};
use crate::arrangements::builds;
use crate::cards::Random;
use crate::entry::Stored;
use crate::letters::codes;
use crate::lists::Lists;
use crate::numbers::NO_PLACE;
use crate::spans::words_in;
use crate::verdict::{Found, Verdict};

/// The words of two letters that stand in a sequence.
fn words(sequence: &str) -> Vec<u32> {
    words_in(&codes(sequence.as_bytes()).expect("letters"), 2)
}

/// The lists of this kind with these entries: word, place one and place two.
fn lists(kind: usize, entries: &[(&str, u16, u16)]) -> Lists {
    let mut lists = Lists::empty(kind, 2);
    for &(word, one, two) in entries {
        let word = words(word)[0];
        lists.push(Stored { word, one, two });
    }
    lists
}

/// What is found of pair lists, and of their span lists with a budget that settles.
fn both(pairs: &Lists) -> [Found; 2] {
    let of_spans = as_spans(pairs).find(u32::MAX);
    assert_ne!(of_spans.verdict, Verdict::Unsettled, "{pairs:?}");
    [pairs.find(0), of_spans]
}

/// Holds pair lists and their span lists to this verdict and these words.
fn hold(pairs: &Lists, verdict: Verdict, words: &[u32]) {
    for found in both(pairs) {
        let found = (found.verdict, found.words.as_slice());
        assert_eq!(found, (verdict, words), "{pairs:?}");
    }
}

/// Holds pair lists and their span lists to the verdict and the words of all these sequences, in order.
fn hold_builds(pairs: &Lists, sequences: &[&str]) {
    let first = sequences.first().map_or(Vec::new(), |first| words(first));
    hold(pairs, Verdict::of_count(sequences.len()), &first);
}

/// Says whether two of the words are equal.
fn has_equal_words(lists: &Lists) -> bool {
    let mut words = lists.words.clone();
    words.sort_unstable();
    words.windows(2).any(|two| two[0] == two[1])
}

#[test]
fn the_same_words_and_places() {
    let pairs = lists(1, &[("AC", 0, NO_PLACE), ("CA", 1, 2), ("AG", 1, 2)]);
    let spans = lists(2, &[("AC", 0, 0), ("CA", 1, 2), ("AG", 1, 2)]);
    assert!(are_near(&pairs));
    assert_eq!(as_spans(&pairs), spans);
    hold_builds(&pairs, &["ACAG"]);
}

#[test]
fn each_verdict() {
    let by_turns = [("AC", 0, 1), ("CA", 0, 1), ("AC", 2, 3), ("CA", 2, 3)];
    hold_builds(&lists(1, &by_turns), &["ACACA", "CACAC"]);
    // Equal words may change places, and the sequence stays.
    hold_builds(&lists(1, &[("AA", 0, 1), ("AA", 0, 1)]), &["AAA"]);
    hold_builds(&lists(1, &[("AA", 0, 1), ("CC", 0, 1)]), &[]);
    // Three entries for two places.
    let crowded = [("AA", 0, 1), ("AA", 0, 1), ("AA", 0, 1)];
    hold_builds(&lists(1, &crowded), &[]);
}

#[test]
fn every_arrangement_of_small_cards() {
    let mut random = Random::new(61);
    let mut came = [0; 3];
    for _ in 0..10_000 {
        let l = random.pick(&[2, 2, 3]);
        let m = random.between(1, 7);
        let letters = random.between(1, 4);
        let pairs = any_near(&mut random, l, m, letters);
        let wanted = builds(&pairs);
        assert_eq!(builds(&as_spans(&pairs)), wanted, "{pairs:?}");
        let first = wanted.first().cloned().unwrap_or_default();
        hold(&pairs, Verdict::of_count(wanted.len()), &first);
        // Two builds have two letters by turns, and no lists have more.
        assert!(wanted.len() <= 2, "{pairs:?}");
        if wanted.len() == 2 {
            let mut words = first.iter().zip(first.iter().skip(2));
            assert!(words.all(|(word, next)| word == next), "{pairs:?}");
            assert_ne!(first[0], first[1], "{pairs:?}");
        }
        came[wanted.len()] += 1;
    }
    assert!(came.iter().all(|&cards| cards > 1000), "{came:?}");
}

#[test]
fn any_cards_with_neighbouring_places() {
    let mut random = Random::new(62);
    let mut came = [0; 3];
    let mut equal_words = 0;
    let mut longest = 0;
    for _ in 0..6000 {
        let pairs = any_neighbours(&mut random);
        assert!(are_near(&pairs), "{pairs:?}");
        let [of_pairs, of_spans] = both(&pairs);
        assert_eq!(of_spans.words, of_pairs.words, "{pairs:?}");
        assert_eq!(of_spans.verdict, of_pairs.verdict, "{pairs:?}");
        match of_pairs.verdict {
            Verdict::None => came[0] += 1,
            Verdict::Sole => came[1] += 1,
            _ => came[2] += 1,
        }
        equal_words += usize::from(has_equal_words(&pairs));
        longest = longest.max(pairs.words.len());
    }
    let [none, one, two] = came;
    assert!(none.min(two) > 500 && one > 3000, "{came:?}");
    assert!(equal_words > 2000 && longest > 400);
}

#[test]
fn places_with_one_between_them_are_another_card() {
    // CA stands at 0, so that AC must stand at 2 and CC at 1, which does not overlap CA.
    // A span has AC at 1 too.
    let apart = lists(1, &[("CA", 0, NO_PLACE), ("AC", 0, 2), ("CC", 1, 2)]);
    assert!(!are_near(&apart));
    let [of_pairs, of_spans] = both(&apart);
    assert_eq!(of_pairs, Found::new(Verdict::None, 0, &[]));
    assert_eq!(of_spans, Found::new(Verdict::Sole, 3, &words("CACC")));
    // Only AG may stand at 1. A span has GC there too, and the new build is the first.
    let apart = lists(1, &[("GC", 0, 2), ("AG", 0, 1), ("CA", 0, 2)]);
    let [of_pairs, of_spans] = both(&apart);
    assert_eq!(of_pairs.verdict, Verdict::Sole);
    assert_eq!(of_pairs.words, words("CAGC"));
    assert_eq!(of_spans.verdict, Verdict::Several);
    assert_eq!(of_spans.words, words("AGCA"));
    assert_eq!(builds(&apart).len(), 1);
    assert_eq!(builds(&as_spans(&apart)).len(), 2);
}
