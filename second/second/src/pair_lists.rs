//! Pair lists for tests of their verdict, drawn from a seed.
//!
//! Most are made from a sequence whose words may stand at their own places, so
//! that they have a build. What else each entry may stand at makes the pattern.

use crate::cards::Random;
use crate::entry::Stored;
use crate::lists::Lists;
use crate::numbers::{NO_PLACE, PAIR};
use crate::profile::Kind;
use crate::spans::{any_size, sequence, shuffle, words_in};

/// Lists of these words in turn, each at its own place and at another.
///
/// An entry whose other place is its own has no second place.
pub fn own_and(l: usize, words: &[u32], mut other: impl FnMut(usize) -> usize) -> Lists {
    let mut lists = Lists::empty(usize::from(PAIR), l);
    for (place, &word) in words.iter().enumerate() {
        let (one, two) = either(place, other(place));
        lists.push(Stored { word, one, two });
    }
    lists
}

/// Place one and place two of an entry that may stand at these places.
pub fn either(place: usize, other: usize) -> (u16, u16) {
    let (one, two) = (place.min(other) as u16, place.max(other) as u16);
    match one == two {
        true => (one, NO_PLACE),
        false => (one, two),
    }
}

/// Leaves entry i this place alone.
pub fn pin(lists: &mut Lists, i: usize, place: usize) {
    (lists.ones[i], lists.twos[i]) = either(place, place);
}

/// Each word has its own place alone.
pub fn alone(l: usize, words: &[u32]) -> Lists {
    own_and(l, words, |place| place)
}

/// A chain that is forced from place 0 on: each word may also stand one place later.
pub fn forced_up(l: usize, words: &[u32]) -> Lists {
    own_and(l, words, |place| (place + 1).min(words.len() - 1))
}

/// A chain that is forced from the last place on: each word may also stand one place earlier.
pub fn forced_down(l: usize, words: &[u32]) -> Lists {
    own_and(l, words, |place| place.saturating_sub(1))
}

/// Rings that go round in these steps, from the last places on to the first.
pub fn in_steps(l: usize, words: &[u32], step: usize) -> Lists {
    own_and(l, words, |place| (place + step) % words.len())
}

/// All words may also stand at one place.
pub fn star(l: usize, words: &[u32], centre: usize) -> Lists {
    own_and(l, words, |_| centre)
}

/// All words may also stand at one of few places, where many meet.
pub fn stars(random: &mut Random, l: usize, words: &[u32]) -> Lists {
    let centres = [(); 3].map(|()| random.below(words.len()));
    own_and(l, words, |place| match centres.contains(&place) {
        true => place,
        false => random.pick(&centres),
    })
}

/// Each word may also stand at a place that is drawn, but some at their own alone.
pub fn scattered(random: &mut Random, l: usize, words: &[u32]) -> Lists {
    let alone = random.between(2, 9);
    own_and(l, words, |place| match random.once_in(alone) {
        true => place,
        false => random.below(words.len()),
    })
}

/// Rings of all lengths: each word may also stand at its place in an order that is drawn.
pub fn in_rings(random: &mut Random, l: usize, words: &[u32]) -> Lists {
    let order = any_order(random, words.len());
    own_and(l, words, |place| order[place])
}

/// Rings of two: words of equal first or last l−1 letters may change places, where two are drawn.
pub fn swapped(random: &mut Random, l: usize, words: &[u32]) -> Lists {
    let tails = 1 << (2 * (l - 1));
    let alike = |a: u32, b: u32| a / 4 == b / 4 || a % tails == b % tails;
    let mut other: Vec<usize> = (0..words.len()).collect();
    let order = any_order(random, words.len());
    for (turn, &place) in order.iter().enumerate() {
        let mut later = order[turn + 1..].iter().copied();
        let partner =
            later.find(|&later| other[later] == later && alike(words[place], words[later]));
        if let (true, Some(partner)) = (other[place] == place, partner) {
            (other[place], other[partner]) = (partner, place);
        }
    }
    own_and(l, words, |place| other[place])
}

/// Each word may also stand at its place in another build, where one is found.
///
/// The other build has two parts of the sequence exchanged. The same l−1 letters
/// stand before both, and the same after both.
pub fn in_two_builds(random: &mut Random, l: usize, words: &[u32]) -> Lists {
    let m = words.len();
    // The l−1 letters before each place, and those after the last.
    let mut before: Vec<u32> = words.iter().map(|word| word / 4).collect();
    before.push(words[m - 1] % (1 << (2 * (l - 1))));
    let mut other: Vec<usize> = (0..m).collect();
    for _ in 0..100 {
        let mut cuts = [(); 4].map(|()| random.below(m + 1));
        cuts.sort_unstable();
        let [a, b, c, d] = cuts;
        let exchanges = a < b && c < d && words[a] != words[c];
        if exchanges && before[a] == before[c] && before[b] == before[d] {
            let exchanged = (c..d).chain(b..c).chain(a..b);
            for (place, moved) in (a..d).zip(exchanged) {
                other[moved] = place;
            }
            break;
        }
    }
    own_and(l, words, |place| other[place])
}

/// The numbers below n in an order that is drawn.
fn any_order(random: &mut Random, n: usize) -> Vec<usize> {
    let mut order: Vec<usize> = (0..n).collect();
    for i in (1..n).rev() {
        order.swap(i, random.below(i + 1));
    }
    order
}

/// The m words of a sequence that goes round: the last word overlaps the first.
pub fn round_words(random: &mut Random, l: usize, m: usize, letters: usize) -> Vec<u32> {
    let letters: Vec<u32> = (0..m).map(|_| random.below(letters) as u32).collect();
    let round: Vec<u32> = letters.iter().cycle().take(m + l - 1).copied().collect();
    words_in(&round, l)
}

/// Lists with one choice for every 2·half words, all free of each other.
///
/// In each choice the first half of the words may change places with the
/// second, all of them together; half is at least l. The words at their own
/// places are the alphabetically first build. Words at the end that do not
/// fill a choice have their own places alone.
pub fn with_choices(random: &mut Random, l: usize, m: usize, half: usize) -> Lists {
    // The halves begin with l−1 letters A, and differ in every other letter.
    let mut letters: Vec<u32> = Vec::new();
    while letters.len() < m + l - 1 {
        let mut run: Vec<u32> = (l..=half).map(|_| random.between(1, 3) as u32).collect();
        run[0] = random.between(1, 2) as u32;
        for turned in [0, 1] {
            letters.resize(letters.len() + l - 1, 0);
            letters.extend(run.iter().map(|letter| (letter - 1 + turned) % 3 + 1));
        }
    }
    letters.truncate(m + l - 1);
    let all_filled = m - m % (2 * half);
    own_and(l, &words_in(&letters, l), |place| {
        match (place < all_filled, place % (2 * half) < half) {
            (false, _) => place,
            (true, true) => place + half,
            (true, false) => place - half,
        }
    })
}

/// Lists with one build: pairs of words stand beside one long ring of equal words.
///
/// The ring's word is one letter alone. Between any two places of the ring a
/// letter of another sort comes and goes, and the first word that has it may
/// change places with the last. Then neither overlaps any word of the ring.
pub fn beside_a_ring(l: usize, m: usize, [ring, other]: [u32; 2]) -> Lists {
    let group = l + 1;
    let letter = |k: usize| if k % group == l { other } else { ring };
    let letters: Vec<u32> = (0..m + l - 1).map(letter).collect();
    let groups = m / group;
    own_and(l, &words_in(&letters, l), |place| {
        match (place / group, place % group) {
            (k, _) if k == groups => place,
            (k, 0) => (k + 1) % groups * group,
            (_, 1) => place + l - 1,
            (_, k) if k == l => place - (l - 1),
            (_, _) => place,
        }
    })
}

/// Lists with one build: words that fail at one of their places, beside two long rings that run through the whole card.
///
/// The letters are ACAG over and over. In each group of eight the words CA
/// and GA that stand beside a ring's places may go to the next group, all
/// of them together, and three pairs of words may change places. A word that
/// is tried at the wrong place meets a ring in which no word overlaps it, and
/// whoever goes on from there goes round the ring. Words at the end that do
/// not fill a group have their own places alone.
pub fn beside_two_rings(m: usize) -> Lists {
    let letters: Vec<u32> = (0..=m).map(|k| [0, 1, 0, 2][k % 4]).collect();
    let filled = m - m % 8;
    own_and(2, &words_in(&letters, 2), |place| match place % 8 {
        _ if place >= filled => place,
        1 | 7 => (place + 8) % filled,
        0 | 3 | 4 => place + 2,
        _ => place - 2,
    })
}

/// Each word may also stand as far from the end as it stands from the start.
pub fn mirrored(l: usize, words: &[u32]) -> Lists {
    own_and(l, words, |place| words.len() - 1 - place)
}

/// The m words of two letters that come by turns, A first.
pub fn by_turns(l: usize, m: usize) -> Vec<u32> {
    let letters: Vec<u32> = (0..m + l - 1).map(|k| k as u32 % 2).collect();
    words_in(&letters, l)
}

/// Lists without a build, of an even m above 2 and words of two letters.
///
/// Each ring ties the next from both ends to the middle, and only what the
/// last two places ask for is against what the first two do.
pub fn at_odds(m: usize) -> Lists {
    let mut words = by_turns(2, m);
    // AA and CC in the place of AC and CA.
    (words[0], words[m - 1]) = (5, 0);
    mirrored(2, &words)
}

/// These words, which have a build at their own places, with other places of any pattern.
pub fn any_pattern(random: &mut Random, l: usize, words: &[u32]) -> Lists {
    let m = words.len();
    match random.below(16) {
        0 => alone(l, words),
        1 => forced_up(l, words),
        2 => forced_down(l, words),
        3 => in_steps(l, words, random.between(1, m)),
        4 => star(l, words, random.below(m)),
        5 => stars(random, l, words),
        6 => in_rings(random, l, words),
        7..=8 => swapped(random, l, words),
        9..=13 => in_two_builds(random, l, words),
        _ => scattered(random, l, words),
    }
}

/// The words of a sequence that is drawn; some sequences go round.
fn any_words(random: &mut Random, l: usize, m: usize, letters: usize) -> Vec<u32> {
    match random.below(3) {
        0 => round_words(random, l, m, letters),
        _ => words_in(&sequence(random, l, m, letters), l),
    }
}

/// Lists in random order that have a build: m words of l letters, with places of any pattern.
pub fn with_build(random: &mut Random, l: usize, m: usize, letters: usize) -> Lists {
    let words = any_words(random, l, m, letters);
    let mut lists = any_pattern(random, l, &words);
    shuffle(random, &mut lists);
    lists
}

/// Sound lists, as with a build, but with the words or the places of a few entries drawn anew.
pub fn perhaps_without(random: &mut Random, l: usize, m: usize, letters: usize) -> Lists {
    let mut lists = with_build(random, l, m, letters);
    for _ in 0..random.between(1, 2) {
        disturb(random, &mut lists, letters);
    }
    lists
}

/// Draws the word or the places of an entry anew.
fn disturb(random: &mut Random, lists: &mut Lists, letters: usize) {
    let m = lists.words.len();
    let i = random.below(m);
    if random.once_in(2) {
        lists.words[i] = words_in(&sequence(random, lists.l, 1, letters), lists.l)[0];
    } else {
        (lists.ones[i], lists.twos[i]) = either(random.below(m), random.below(m));
    }
}

/// Up to twice draws the word or the places of an entry anew.
fn perhaps_disturb(random: &mut Random, lists: &mut Lists, letters: usize) {
    for _ in 0..random.below(3) {
        disturb(random, lists, letters);
    }
}

/// Any sound lists, of which most have a build.
///
/// They have m words of l letters, but some have words of two letters, and
/// these are of an even number.
pub fn any_sound_pairs(random: &mut Random, l: usize, m: usize, letters: usize) -> Lists {
    match random.below(16) {
        0 => Lists::sound(random, Kind::Pair, l as u8, m as u16),
        1..=3 => {
            let half = random.between(l, (m / 2).max(l));
            let mut lists = with_choices(random, l, m, half);
            perhaps_disturb(random, &mut lists, 4);
            shuffle(random, &mut lists);
            lists
        }
        4 => beside_a_ring(l, m, random.pick(&[[0, 1], [1, 0], [3, 2]])),
        5 if m > 2 => {
            let mut lists = at_odds(m - m % 2);
            perhaps_disturb(random, &mut lists, 2);
            lists
        }
        5..=10 => with_build(random, l, m, letters),
        _ => perhaps_without(random, l, m, letters),
    }
}

/// Any sound lists: most have a build, and most are of few entries.
pub fn any_pairs(random: &mut Random) -> Lists {
    let (l, m) = any_size(random);
    let letters = random.between(1, 4);
    any_sound_pairs(random, l, m, letters)
}
