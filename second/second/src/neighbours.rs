//! Pair lists whose two places are neighbours, and the span lists that they become.
//!
//! Where each entry has one place, or p and p+1, the span lists with the same
//! words and places allow what the pair lists allow. Two builds such lists have
//! in one way alone: two letters come by turns through the whole card, and the
//! words of places 0 and 1, 2 and 3 and so on may all change places.

#[cfg(test)]
mod tests;

use crate::cards::Random;
use crate::entry::Stored;
use crate::lists::Lists;
use crate::numbers::{NO_PLACE, SPAN};
use crate::pair_lists::{either, forced_down, forced_up, own_and};
use crate::spans::{any_size, sequence, shuffle, words_in};

/// Says whether each entry of sound pair lists has one place, or two that are neighbours.
pub fn are_near(pairs: &Lists) -> bool {
    let mut places = pairs.ones.iter().zip(&pairs.twos);
    places.all(|(&one, &two)| two == NO_PLACE || two == one + 1)
}

/// The span lists with the words and places of pair lists: one place p becomes the span from p to p.
///
/// Of two places that are no neighbours the span also has those between them.
pub fn as_spans(pairs: &Lists) -> Lists {
    let mut spans = Lists::empty(usize::from(SPAN), pairs.l);
    for i in 0..pairs.words.len() {
        let Stored { word, one, two } = pairs.get(i);
        let two = match two {
            NO_PLACE => one,
            two => two,
        };
        spans.push(Stored { word, one, two });
    }
    spans
}

/// Any sound pair lists whose two places are neighbours: most have a build, and most are of few entries.
pub fn any_neighbours(random: &mut Random) -> Lists {
    let (l, m) = any_size(random);
    let letters = random.between(1, 4);
    any_near(random, l, m, letters)
}

/// Such lists of m words of l letters, in random order; those with two builds may have an entry more.
pub fn any_near(random: &mut Random, l: usize, m: usize, letters: usize) -> Lists {
    let mut lists = match random.once_in(5) {
        true => two_builds(random, l, m + m % 2),
        false => {
            let words = words_in(&sequence(random, l, m, letters), l);
            with_neighbours(random, l, &words)
        }
    };
    if random.once_in(4) {
        disturb(random, &mut lists, letters);
    }
    shuffle(random, &mut lists);
    lists
}

/// Lists with two builds, of an even m: two letters by turns, and each word may change places with its neighbour.
fn two_builds(random: &mut Random, l: usize, m: usize) -> Lists {
    let letters = random.pick(&[[0, 1], [1, 0], [0, 3], [2, 1], [3, 2]]);
    let by_turns: Vec<u32> = (0..m + l - 1).map(|k| letters[k % 2]).collect();
    exchanged(l, &words_in(&by_turns, l), 0)
}

/// Each word may change places with a neighbour, from this place on two by two; one that is over has its own place alone.
fn exchanged(l: usize, words: &[u32], from: usize) -> Lists {
    own_and(l, words, |place| {
        let other = match place.checked_sub(from) {
            None => place,
            Some(after) => from + (after ^ 1),
        };
        match other < words.len() {
            true => other,
            false => place,
        }
    })
}

/// These words, which have a build at their own places, each also at a neighbouring place or not.
fn with_neighbours(random: &mut Random, l: usize, words: &[u32]) -> Lists {
    let last = words.len() - 1;
    match random.below(5) {
        0 => forced_up(l, words),
        1 => forced_down(l, words),
        2 => exchanged(l, words, random.below(2)),
        _ => own_and(l, words, |place| {
            random.between(place.saturating_sub(1), last.min(place + 1))
        }),
    }
}

/// Draws the word or the places of an entry anew.
fn disturb(random: &mut Random, lists: &mut Lists, letters: usize) {
    let m = lists.words.len();
    let i = random.below(m);
    if random.once_in(2) {
        lists.words[i] = words_in(&sequence(random, lists.l, 1, letters), lists.l)[0];
    } else {
        let place = random.below(m);
        let other = (m - 1).min(place + random.below(2));
        (lists.ones[i], lists.twos[i]) = either(place, other);
    }
}
