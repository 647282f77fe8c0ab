//! Tests of the walk.

use super::placements::{placements, verdict};
use crate::arrangements::builds;
use crate::cards::Random;
use crate::entry::Stored;
use crate::lists::Lists;
use crate::spans::{around, perhaps_without, with_build, words_in};
use crate::verdict::{Found, Verdict};

/// The span lists with these entries: word, first place and last place.
fn spans(l: usize, entries: &[(u32, u16, u16)]) -> Lists {
    let mut lists = Lists::empty(2, l);
    for &(word, one, two) in entries {
        lists.push(Stored { word, one, two });
    }
    lists
}

/// Holds the lists to this verdict, these placements and this build, at budgets on both sides.
fn hold(lists: &Lists, verdict: Verdict, placements: u32, build: &[u32]) {
    let small = 0..placements.saturating_add(4);
    for budget in small.chain([1000, 1 << 16, u32::MAX]) {
        let wanted = if budget < placements {
            Found::new(Verdict::Unsettled, budget, &[])
        } else {
            Found::new(verdict, placements, build)
        };
        assert_eq!(lists.find(budget), wanted, "budget {budget}");
    }
}

#[test]
fn one_entry() {
    hold(&spans(2, &[(15, 0, 0)]), Verdict::Sole, 1, &[15]);
    let longest = 16_777_215;
    hold(&spans(12, &[(longest, 0, 0)]), Verdict::Sole, 1, &[longest]);
}

#[test]
fn a_place_that_no_span_holds() {
    // Place 0 has none; then place 1, after one placement at place 0.
    hold(&spans(2, &[(0, 1, 1), (0, 1, 1)]), Verdict::None, 0, &[]);
    let hole = spans(2, &[(0, 0, 0), (0, 2, 2), (0, 2, 3), (0, 2, 3)]);
    hold(&hole, Verdict::None, 1, &[]);
}

#[test]
fn what_is_due_goes_first() {
    // CA may stand at 1 alone; AA may not take its place, and is not tried there.
    let due = spans(2, &[(0, 1, 2), (1, 0, 0), (4, 1, 1)]);
    hold(&due, Verdict::Sole, 3, &[1, 4, 0]);
    // An entry that is due and does not overlap leaves nothing to try.
    let stuck = spans(2, &[(0, 0, 0), (15, 1, 1), (0, 1, 2)]);
    hold(&stuck, Verdict::None, 1, &[]);
}

#[test]
fn equal_words_go_by_their_ends() {
    // The later entry ends first; by index the walk would end in nothing.
    let ends = spans(2, &[(0, 0, 3), (0, 0, 2), (0, 0, 1), (0, 0, 0)]);
    hold(&ends, Verdict::Sole, 4, &[0, 0, 0, 0]);
    let ties = spans(3, &[(0, 0, 2), (0, 0, 2), (0, 0, 2)]);
    hold(&ties, Verdict::Sole, 3, &[0, 0, 0]);
}

#[test]
fn words_of_twelve_letters_overlap_by_eleven() {
    let words = words_in(&[3, 3, 3, 3, 3, 3, 3, 3, 3, 3, 3, 3, 0, 1], 12);
    let entries: Vec<(u32, u16, u16)> = words.iter().map(|&word| (word, 0, 2)).collect();
    // The words fall, so that the last is tried first, then the middle one and what follows it.
    hold(&spans(12, &entries), Verdict::Sole, 6, &words);
}

#[test]
fn a_full_card_of_one_word() {
    let lists = around(&mut Random::new(1), 2, &[0; 504], 8, 8);
    assert_eq!(lists.find(504), Found::new(Verdict::Sole, 504, &[0; 504]));
    assert_eq!(lists.find(503), Found::new(Verdict::Unsettled, 503, &[]));
}

#[test]
fn every_window_that_of_the_word_before() {
    // The sequence goes round, so that the words moved by one place have a build too.
    let words = [1, 6, 11, 12];
    let moved = [6, 11, 12, 1];
    let card = |words: [u32; 4]| spans(2, &[0, 1, 2, 3].map(|i| (words[i], i as u16, i as u16)));
    hold(&card(words), Verdict::Sole, 4, &words);
    hold(&card(moved), Verdict::Sole, 4, &moved);
}

#[test]
fn every_arrangement_of_small_cards() {
    let mut random = Random::new(4);
    for _ in 0..6000 {
        let l = random.between(2, 3);
        let m = random.between(1, 6);
        let letters = random.between(1, 3);
        let lists = match random.below(2) {
            0 => with_build(&mut random, l, m, letters, 8),
            _ => perhaps_without(&mut random, l, m, letters),
        };
        let builds = builds(&lists);
        let (verdict, count) = verdict(&placements(&lists));
        assert_eq!(verdict, Verdict::of_count(builds.len()), "{lists:?}");
        let first = builds.first().cloned().unwrap_or_default();
        let wanted = Found::new(verdict, count, &first);
        assert_eq!(lists.find(u32::MAX), wanted, "{lists:?}");
    }
}

#[test]
fn the_placements_of_longer_cards() {
    let mut random = Random::new(5);
    for _ in 0..1500 {
        let l = random.between(2, 4);
        let m = random.between(1, 14);
        let lists = with_build(&mut random, l, m, 2, 6);
        let (verdict, count) = verdict(&placements(&lists));
        assert_ne!(verdict, Verdict::None);
        let own = lists.find(count);
        assert_eq!((own.verdict, own.placements), (verdict, count));
        let short = Found::new(Verdict::Unsettled, count - 1, &[]);
        assert_eq!(lists.find(count - 1), short);
        assert_eq!(lists.find(u32::MAX), own);
    }
}
