//! Tests of the verdict on pair lists.

use super::{builds, Builds};
use crate::arrangements;
use crate::cards::Random;
use crate::entry::Stored;
use crate::lists::Lists;
use crate::pair_lists::{
    alone, any_sound_pairs, at_odds, beside_a_ring, beside_two_rings, by_turns, forced_down,
    forced_up, in_steps, mirrored, pin, round_words, scattered, star, stars, with_choices,
};
use crate::spans::{sequence, shuffle, words_in};
use crate::verdict::{Found, Verdict};

/// No second place.
const NONE: u16 = 65_535;

/// The pair lists with these entries: word, place one and place two.
fn pairs(l: usize, entries: &[(u32, u16, u16)]) -> Lists {
    let mut lists = Lists::empty(1, l);
    for &(word, one, two) in entries {
        lists.push(Stored { word, one, two });
    }
    lists
}

/// Holds the lists to this verdict and this build, whatever the budget is.
fn hold(lists: &Lists, verdict: Verdict, build: &[u32]) {
    for budget in [0, 1, u32::MAX] {
        let wanted = Found::new(verdict, 0, build);
        assert_eq!(lists.find(budget), wanted, "{lists:?}");
    }
}

/// The builds of sound lists, if there are any.
fn builds_of(lists: &Lists) -> Option<Builds> {
    let (profile, entries) = lists.admitted().expect("lists that are sound");
    builds(profile.l, &entries)
}

/// Holds the lists to this number of choices, and to this alphabetically first build.
fn hold_choices(lists: &Lists, choices: u32, build: &[u32]) {
    let builds = builds_of(lists).expect("lists that have a build");
    assert_eq!(builds.choices, choices);
    let verdict = match choices {
        0 => Verdict::Sole,
        _ => Verdict::Several,
    };
    hold(lists, verdict, build);
}

/// The words of a sequence that is drawn from four letters.
fn drawn(random: &mut Random, l: usize, m: usize) -> Vec<u32> {
    words_in(&sequence(random, l, m, 4), l)
}

#[test]
fn one_entry() {
    let longest = 16_777_215;
    hold(&pairs(12, &[(longest, 0, NONE)]), Verdict::Sole, &[longest]);
}

#[test]
fn the_first_build_is_not_the_one_in_entry_order() {
    let later_first = pairs(2, &[(2, 0, 2), (8, 1, 3), (1, 0, 2), (4, 1, 3)]);
    hold_choices(&later_first, 1, &[1, 4, 2, 8]);
}

#[test]
fn sides_that_a_settled_neighbour_tells() {
    // AA stands at 0, so that AC comes next, and then CA.
    let before = pairs(2, &[(0, 0, NONE), (4, 1, 2), (1, 1, 2)]);
    hold_choices(&before, 0, &[0, 1, 4]);
    // CC stands at 2, so that AC comes before it.
    let after = pairs(2, &[(1, 0, 1), (5, 2, NONE), (4, 0, 1)]);
    hold_choices(&after, 0, &[4, 1, 5]);
    // Between the two neither side will do.
    let between = pairs(2, &[(0, 0, NONE), (4, 1, 2), (1, 1, 2), (5, 3, NONE)]);
    hold(&between, Verdict::None, &[]);
}

#[test]
fn a_ring_beside_itself() {
    // ACA and CAC are both builds, and AC before CC is the only one there.
    let both = pairs(2, &[(1, 0, 1), (4, 0, 1)]);
    hold_choices(&both, 1, &[1, 4]);
    let one = pairs(2, &[(5, 0, 1), (1, 0, 1)]);
    hold_choices(&one, 0, &[1, 5]);
    let neither = pairs(2, &[(0, 0, 1), (15, 0, 1)]);
    hold(&neither, Verdict::None, &[]);
}

#[test]
fn rings_tied_from_both_ends() {
    for m in [4, 6, 10, 504] {
        let words = by_turns(2, m);
        hold_choices(&mirrored(2, &words), 1, &words);
        let mut turned = mirrored(2, &words);
        pin(&mut turned, m / 2, m / 2 - 1);
        let other: Vec<u32> = words.iter().rev().copied().collect();
        hold_choices(&turned, 0, &other);
        // No place is settled, and every two neighbours can do.
        hold(&at_odds(m), Verdict::None, &[]);
    }
    // In the middle of an odd m stands the word that is settled.
    hold_choices(&mirrored(3, &by_turns(3, 503)), 0, &by_turns(3, 503));
}

#[test]
fn every_arrangement_of_small_cards() {
    let mut random = Random::new(11);
    let mut of_choices = [0; 3];
    for _ in 0..20_000 {
        let l = random.pick(&[2, 2, 3]);
        let m = random.pick(&[1, 2, 3, 4, 5, 6, 7, 7, 8, 8]);
        let letters = random.between(1, 4);
        let lists = any_sound_pairs(&mut random, l, m, letters);
        let wanted = arrangements::builds(&lists);
        let found = builds_of(&lists);
        let count = found.as_ref().map_or(0, |found| 1 << found.choices);
        assert_eq!(wanted.len(), count, "{lists:?}");
        let first = wanted.first().cloned().unwrap_or_default();
        hold(&lists, Verdict::of_count(wanted.len()), &first);
        of_choices[count.min(2)] += 1;
    }
    // No verdict is rare among them.
    assert!(
        of_choices.iter().all(|&cards| cards > 1500),
        "{of_choices:?}"
    );
}

#[test]
fn the_order_of_the_entries_does_not_matter() {
    let mut random = Random::new(12);
    for _ in 0..2000 {
        let m = random.between(1, 60);
        let mut lists = any_sound_pairs(&mut random, 2, m, 2);
        let found = lists.find(0);
        shuffle(&mut random, &mut lists);
        assert_eq!(lists.find(0), found, "{lists:?}");
    }
}

#[test]
fn many_choices() {
    let mut random = Random::new(13);
    for (l, m, half) in [
        (2, 4, 2),
        (2, 504, 2),
        (3, 504, 3),
        (2, 500, 5),
        (12, 504, 12),
        (2, 503, 20),
        (2, 504, 252),
        (5, 503, 251),
    ] {
        let mut lists = with_choices(&mut random, l, m, half);
        let build = lists.words.clone();
        shuffle(&mut random, &mut lists);
        hold_choices(&lists, (m / (2 * half)) as u32, &build);
    }
}

#[test]
fn one_entry_tells_the_side_of_all() {
    let mut random = Random::new(14);
    let half = 252;
    for l in [2, 7] {
        for i in [0, 100, 251, 252, 503] {
            let free = with_choices(&mut random, l, 2 * half, half);
            let mut kept = free.clone();
            pin(&mut kept, i, i);
            hold_choices(&kept, 0, &free.words);
            let mut turned = free.clone();
            pin(&mut turned, i, (i + half) % (2 * half));
            let mut build = free.words.clone();
            build.rotate_left(half);
            hold_choices(&turned, 0, &build);
            // Another entry that is told the other side leaves nothing.
            let other = (i + 17) % (2 * half);
            pin(&mut turned, other, other);
            hold(&turned, Verdict::None, &[]);
        }
    }
}

#[test]
fn chains_and_stars_are_forced() {
    let mut random = Random::new(15);
    for m in [1, 2, 3, 63, 504] {
        let words = drawn(&mut random, 3, m);
        let centre = random.below(m);
        for lists in [
            alone(3, &words),
            forced_up(3, &words),
            forced_down(3, &words),
            star(3, &words, centre),
            stars(&mut random, 3, &words),
        ] {
            hold_choices(&lists, 0, &words);
        }
    }
}

#[test]
fn forced_neighbours_that_do_not_overlap() {
    let mut random = Random::new(23);
    for m in [3, 63, 504] {
        let words = drawn(&mut random, 3, m);
        for word in 0..64 {
            let mut misread = forced_up(3, &words);
            misread.words[m / 2] = word;
            // The words before and after it leave one word alone.
            match word == words[m / 2] {
                true => hold(&misread, Verdict::Sole, &words),
                false => hold(&misread, Verdict::None, &[]),
            }
        }
    }
}

#[test]
fn one_ring_through_all_places() {
    let mut random = Random::new(16);
    for m in [5, 63, 504] {
        let words = round_words(&mut random, 4, m, 4);
        let mut moved = words.clone();
        moved.rotate_right(1);
        let first = words.clone().min(moved);
        hold_choices(&in_steps(4, &words, 1), 1, &first);
        let mut kept = in_steps(4, &words, 1);
        pin(&mut kept, m / 2, m / 2);
        hold_choices(&kept, 0, &words);
        // Equal words are no choice.
        hold_choices(&in_steps(4, &vec![85; m], 1), 0, &vec![85; m]);
        hold_choices(&in_steps(4, &vec![85; m], 3), 0, &vec![85; m]);
    }
}

#[test]
fn pairs_beside_one_long_ring() {
    let mut random = Random::new(17);
    for (l, m) in [(2, 3), (2, 6), (2, 504), (3, 504), (12, 503), (5, 100)] {
        for letters in [[0, 1], [1, 0], [3, 2]] {
            let mut lists = beside_a_ring(l, m, letters);
            let build = lists.words.clone();
            shuffle(&mut random, &mut lists);
            hold_choices(&lists, 0, &build);
        }
    }
}

#[test]
fn pairs_beside_two_long_rings() {
    let mut random = Random::new(20);
    for m in [1, 7, 8, 12, 16, 63, 504] {
        let mut lists = beside_two_rings(m);
        let build = lists.words.clone();
        shuffle(&mut random, &mut lists);
        hold_choices(&lists, 0, &build);
    }
}

#[test]
fn full_cards_of_one_word() {
    let mut random = Random::new(18);
    for _ in 0..20 {
        let lists = scattered(&mut random, 2, &[0; 504]);
        hold_choices(&lists, 0, &[0; 504]);
    }
}
