//! Long cards whose number of builds is known beforehand.

use super::hold;
use crate::cards::Random;
use crate::count::Count::{self, Power};
use crate::known_counts::{
    any_choices, any_joined, choice_of_three, copies, exchanged_afar, joined, table,
};
use crate::lists::Lists;
use crate::pair_lists::{
    alone, at_odds, beside_a_ring, beside_two_rings, by_turns, forced_up, in_steps, mirrored, pin,
    round_words, scattered, star, with_choices,
};
use crate::spans::{sequence, shuffle, words_in};

/// Holds the lists, and the same entries in another order, to this number of builds.
fn hold_shuffled(random: &mut Random, mut lists: Lists, wanted: Count) {
    hold(&lists, wanted);
    shuffle(random, &mut lists);
    hold(&lists, wanted);
}

#[test]
fn choices_free_of_each_other() {
    let mut random = Random::new(41);
    for (l, m, half) in [
        (2, 504, 2),
        (3, 504, 3),
        (2, 500, 5),
        (12, 504, 12),
        (2, 503, 20),
        (2, 504, 252),
    ] {
        let free = (m / (2 * half)) as u32;
        let mut lists = with_choices(&mut random, l, m, half);
        hold_shuffled(&mut random, lists.clone(), Power(free));
        // The place of one entry makes one choice, and no more.
        let i = random.below(2 * half);
        pin(&mut lists, i, i);
        hold_shuffled(&mut random, lists.clone(), Power(free - 1));
        // Another entry of that choice that is told otherwise leaves no build.
        let other = (i + 1) % (2 * half);
        pin(&mut lists, other, (other + half) % (2 * half));
        hold_shuffled(&mut random, lists, Count::None);
    }
}

#[test]
fn a_choice_for_every_three_entries() {
    let mut random = Random::new(42);
    for number in [1, 31, 32, 33, 63, 64, 65, 100, 127, 128, 129, 167, 168] {
        let lists = copies(&choice_of_three(), number);
        assert_eq!(lists.words.len(), 3 * number);
        hold_shuffled(&mut random, lists, Power(number as u32));
    }
}

#[test]
fn choices_between_the_halves_of_a_card() {
    let mut random = Random::new(43);
    assert_eq!(exchanged_afar(4), table("P1"));
    for m in [4, 8, 64, 252, 500, 504] {
        hold_shuffled(&mut random, exchanged_afar(m), Power(m as u32 / 4));
    }
}

#[test]
fn any_parts_side_by_side() {
    let mut random = Random::new(44);
    let mut most = 0;
    for _ in 0..2000 {
        let (lists, count) = any_joined(&mut random, 504);
        hold_shuffled(&mut random, lists, count);
        if let Power(exponent) = count {
            most = most.max(exponent);
        }
    }
    assert!(most > 20, "{most}");
    let (free, equal) = (table("P1"), table("P5"));
    let one = joined(&[&equal, &free, &equal, &equal, &free]);
    hold_shuffled(&mut random, one, Power(2));
    let none = joined(&[&free, &free, &table("P4"), &free]);
    hold_shuffled(&mut random, none, Count::None);
}

#[test]
fn any_number_of_choices_side_by_side() {
    let mut random = Random::new(46);
    let (mut none, mut low, mut high) = (0, 0, 0);
    for _ in 0..1000 {
        let (lists, count) = any_choices(&mut random, 504);
        assert!(lists.words.len() <= 504);
        match count {
            Count::None => none += 1,
            Power(0..=64) => low += 1,
            Power(65..=100) => {}
            Power(_) => high += 1,
        }
        hold_shuffled(&mut random, lists, count);
    }
    assert!(none > 50 && low > 200 && high > 200, "{none} {low} {high}");
}

#[test]
fn one_choice_for_all_or_none() {
    let mut random = Random::new(45);
    for m in [6, 63, 503, 504] {
        let words = words_in(&sequence(&mut random, 4, m, 4), 4);
        for lists in [alone(4, &words), forced_up(4, &words), star(4, &words, 0)] {
            hold_shuffled(&mut random, lists, Power(0));
        }
        let round = round_words(&mut random, 9, m, 4);
        hold_shuffled(&mut random, in_steps(9, &round, 1), Power(1));
        hold_shuffled(&mut random, in_steps(4, &vec![85; m], 3), Power(0));
        let lists = scattered(&mut random, 2, &vec![15; m]);
        hold_shuffled(&mut random, lists, Power(0));
        hold_shuffled(&mut random, beside_a_ring(2, m, [0, 1]), Power(0));
        hold_shuffled(&mut random, beside_two_rings(m), Power(0));
    }
    for m in [6, 252, 504] {
        let turns = mirrored(2, &by_turns(2, m));
        hold_shuffled(&mut random, turns, Power(1));
        hold_shuffled(&mut random, at_odds(m), Count::None);
    }
}
