//! Tests of the lists that are drawn.

use super::*;
use crate::late::sole_after;
use crate::report::BUDGET;
use crate::verdict::Verdict;

/// Holds each span of the lists to four places at most.
fn hold_narrow(lists: &Lists) {
    assert!(lists.card().is_ok(), "{lists:?}");
    let mut places = lists.ones.iter().zip(&lists.twos);
    assert!(places.all(|(one, two)| two - one < 4), "{lists:?}");
}

#[test]
fn the_lists_are_sound_and_narrow() {
    let mut random = Random::new(71);
    for _ in 0..2000 {
        hold_narrow(&any_narrow(&mut random));
        hold_narrow(&any_widest(&mut random));
        hold_narrow(&few_words(&mut random));
        hold_narrow(&without_end(&mut random, 3, 20));
    }
}

#[test]
fn seven_are_over_a_place_and_eight() {
    let mut random = Random::new(72);
    for m in [7, 8, 13, 14, 63, 504] {
        let lists = crowded(&mut random, 2, m, 3);
        hold_narrow(&lists);
        assert_eq!(most_over(&lists), 7);
        if m > 7 {
            let lists = overcrowded(&mut random, 2, m, 3);
            hold_narrow(&lists);
            assert_eq!(most_over(&lists), 8);
        }
    }
}

#[test]
fn the_stored_lists_are_what_is_stated() {
    let (placements, lists) = late();
    hold_narrow(&lists);
    assert!(placements > BUDGET);
    assert_eq!(sole_after(&lists), Some(placements));
}

#[test]
fn the_stored_lists_over_and_over() {
    let (placements, part) = late();
    for m in [part.words.len(), 60, 100, 252, 504] {
        let lists = late_again(m);
        hold_narrow(&lists);
        assert_eq!(lists.words.len(), m);
        let (profile, entries) = lists.admitted().expect("sound lists");
        assert_eq!(layers(profile.l, &entries).verdict, Verdict::Sole);
        assert!(sole_after(&lists) >= Some(placements));
    }
}
