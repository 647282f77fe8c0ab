//! Tests of the number of builds.

mod exponents;
mod refusals;

use super::{count_card, Count};
use crate::arrangements;
use crate::build::build;
use crate::cards::Random;
use crate::entry::Stored;
use crate::known_counts::{any_choices, any_joined, choice_of_three, copies, table};
use crate::lists::Lists;
use crate::numbers::NO_PLACE;
use crate::pair_lists::{any_pairs, any_sound_pairs, either};
use crate::refusal::Reason;
use crate::tables::tables;
use crate::verdict::Verdict;
use Count::Power;

/// The pair lists of words of two letters with these entries: word, place one and place two.
fn pairs(entries: &[(u32, u16, u16)]) -> Lists {
    let mut lists = Lists::empty(1, 2);
    for &(word, one, two) in entries {
        lists.push(Stored { word, one, two });
    }
    lists
}

/// Holds sound pair lists and their card to this number of builds.
fn hold(lists: &Lists, wanted: Count) {
    assert_eq!(lists.count(), Ok(wanted), "{lists:?}");
    let card = lists.card().expect("sound lists");
    assert_eq!(count_card(&card), Ok(wanted), "{lists:?}");
}

/// The number of different sequences that the arrangements of sound lists spell.
fn by_arrangements(lists: &Lists) -> Count {
    match arrangements::builds(lists).len() {
        0 => Count::None,
        number => {
            assert!(number.is_power_of_two(), "{number} builds of {lists:?}");
            Power(number.ilog2())
        }
    }
}

#[test]
fn the_pair_tables() {
    let none = Count::None;
    let one = Power(0);
    let wanted = [Power(1), one, one, none, one, one, none];
    for (table, wanted) in tables().iter().zip(wanted) {
        hold(&table.lists, wanted);
    }
}

#[test]
fn the_span_tables() {
    for table in &tables()[7..] {
        let refusal = Err(Reason::Kind.at(0));
        assert_eq!(table.lists.count(), refusal, "{}", table.name);
        let card = table.lists.card().expect("a sound table");
        assert_eq!(count_card(&card), refusal, "{}", table.name);
    }
}

#[test]
fn copies_of_p1_side_by_side() {
    // AC 1, CA 4, AG 2, GA 8; the places of the second copy are 4 more.
    let two = pairs(&[
        (1, 0, 2),
        (4, 1, 3),
        (2, 0, 2),
        (8, 1, 3),
        (1, 4, 6),
        (4, 5, 7),
        (2, 4, 6),
        (8, 5, 7),
    ]);
    hold(&two, Power(2));
    assert_eq!(arrangements::builds(&two).len(), 4);
    assert_eq!(copies(&table("P1"), 2), two);
    hold(&copies(&table("P1"), 3), Power(3));
    hold(&copies(&table("P1"), 126), Power(126));
}

#[test]
fn equal_words_are_no_choice() {
    // AA at all places: two ways to put them, or eight, and one build.
    hold(&pairs(&[(0, 0, 1), (0, 0, 1)]), Power(0));
    let three_rings = [
        (0, 0, 3),
        (0, 1, 4),
        (0, 2, 5),
        (0, 0, 3),
        (0, 1, 4),
        (0, 2, 5),
    ];
    hold(&pairs(&three_rings), Power(0));
    // ACACA: CA stands at 1 and at 3, whichever entry it is, and AC at 0 and 2.
    let words_twice = [(1, 0, 2), (4, 1, 3), (1, 0, 2), (4, 1, 3)];
    hold(&pairs(&words_twice), Power(0));
    // Of AC AC CA CA in one ring only the turn to the side changes the sequence.
    let one_ring = [(1, 0, 1), (4, 1, 2), (1, 2, 3), (4, 0, 3)];
    hold(&pairs(&one_ring), Power(1));
}

#[test]
fn one_entry() {
    for l in 2..=12 {
        let mut lists = Lists::empty(1, l);
        let (word, one, two) = ((1 << (2 * l)) - 1, 0, NO_PLACE);
        lists.push(Stored { word, one, two });
        hold(&lists, Power(0));
    }
}

#[test]
fn every_arrangement_of_small_cards() {
    let mut random = Random::new(31);
    let mut came = [0; 4];
    for _ in 0..12_000 {
        let l = random.pick(&[2, 2, 3]);
        let m = random.between(1, 8);
        let letters = random.between(1, 4);
        let lists = any_sound_pairs(&mut random, l, m, letters);
        let wanted = by_arrangements(&lists);
        hold(&lists, wanted);
        came[place_of(wanted)] += 1;
    }
    // Four builds of eight entries are rare.
    let [none, one, two, more] = came;
    assert!(none.min(one).min(two) > 500 && more > 10, "{came:?}");
}

#[test]
fn every_arrangement_where_all_is_drawn() {
    let mut random = Random::new(32);
    let mut came = [0; 4];
    for _ in 0..20_000 {
        // Words of A and C alone: most cards have equal words.
        let m = random.between(2, 6);
        let mut lists = Lists::empty(1, 2);
        for _ in 0..m {
            let word = random.pick(&[0, 1, 1, 4, 4, 5]);
            let (one, two) = either(random.below(m), random.below(m));
            lists.push(Stored { word, one, two });
        }
        let wanted = by_arrangements(&lists);
        hold(&lists, wanted);
        came[place_of(wanted)] += 1;
    }
    // Four builds of six entries hardly come by themselves.
    let [none, one, two, _] = came;
    assert!(none.min(one).min(two) > 100, "{came:?}");
}

/// Where cards with no build, one, two and more are counted.
fn place_of(count: Count) -> usize {
    match count {
        Count::None => 0,
        Power(exponent) => 1 + exponent.min(2) as usize,
    }
}

#[test]
fn every_arrangement_of_parts_side_by_side() {
    let mut random = Random::new(33);
    let mut came = [0; 4];
    for _ in 0..1000 {
        let (lists, count) = any_choices(&mut random, 14);
        assert_eq!(by_arrangements(&lists), count, "{lists:?}");
        hold(&lists, count);
        let (mut lists, count) = any_joined(&mut random, 14);
        assert_eq!(by_arrangements(&lists), count, "{lists:?}");
        hold(&lists, count);
        // The same with an entry that may stand elsewhere.
        let m = lists.words.len();
        let i = random.below(m);
        (lists.ones[i], lists.twos[i]) = either(random.below(m), random.below(m));
        let count = by_arrangements(&lists);
        hold(&lists, count);
        came[place_of(count)] += 1;
    }
    assert!(came.iter().all(|&cards| cards > 50), "{came:?}");
    assert_eq!(by_arrangements(&copies(&choice_of_three(), 4)), Power(4));
}

/// On small cards the verdict is the one that trying every arrangement gives.
///
/// On longer ones it is that of a build, which is told of the same choices as
/// the number: there only `Count::verdict` is tested.
#[test]
fn the_verdict_says_as_much() {
    let mut random = Random::new(34);
    let mut came = [0; 4];
    let mut small = [0; 4];
    for _ in 0..3000 {
        let lists = any_pairs(&mut random);
        let count = lists.count().expect("sound pair lists");
        hold(&lists, count);
        let card = lists.card().expect("sound lists");
        let built = build(&card, 0, &mut [0; 600]).expect("a sound card with room");
        assert_eq!(count.verdict(), built.verdict, "{lists:?}");
        came[place_of(count)] += 1;
        if lists.words.len() <= 10 {
            let builds = arrangements::builds(&lists).len();
            assert_eq!(count.verdict(), Verdict::of_count(builds), "{lists:?}");
            small[place_of(count)] += 1;
        }
    }
    assert!(came.iter().all(|&cards| cards > 10), "{came:?}");
    // Four builds of ten entries are rare.
    assert!(small[..3].iter().all(|&cards| cards > 50), "{small:?}");
}
