//! Span lists for tests of the walk, drawn from a seed.
//!
//! Most are made from a sequence, so that they have a build. A sequence of few
//! different letters makes many equal words.

use crate::cards::Random;
use crate::entry::Stored;
use crate::lists::Lists;
use crate::numbers::{MOST_ENTRIES, MOST_LETTERS, SPAN, SPAN_WIDTH};

/// A sequence with m words of l letters; its letters are the first of A, C, G, T.
pub fn sequence(random: &mut Random, l: usize, m: usize, letters: usize) -> Vec<u32> {
    (1..m + l).map(|_| random.below(letters) as u32).collect()
}

/// The words of l letters that stand in a sequence, in turn.
pub fn words_in(sequence: &[u32], l: usize) -> Vec<u32> {
    let value = |letters: &[u32]| letters.iter().fold(0, |word, letter| 4 * word + letter);
    sequence.windows(l).map(value).collect()
}

/// A span of this width, or of m where that is less, that holds this place of m.
pub fn window(random: &mut Random, place: usize, m: usize, width: usize) -> (u16, u16) {
    let width = width.min(m);
    let low = (place + 1).saturating_sub(width);
    let high = place.min(m - width);
    let first = random.between(low, high);
    (first as u16, (first + width - 1) as u16)
}

/// Lists of these words in turn, each in a span around its own place, narrow up to wide.
pub fn around(random: &mut Random, l: usize, words: &[u32], narrow: usize, wide: usize) -> Lists {
    let mut lists = Lists::empty(usize::from(SPAN), l);
    for (place, &word) in words.iter().enumerate() {
        let width = random.between(narrow, wide);
        let (one, two) = window(random, place, words.len(), width);
        lists.push(Stored { word, one, two });
    }
    lists
}

/// Puts the entries of lists of one length in a random order.
pub fn shuffle(random: &mut Random, lists: &mut Lists) {
    for i in (1..lists.words.len()).rev() {
        let j = random.below(i + 1);
        lists.words.swap(i, j);
        lists.ones.swap(i, j);
        lists.twos.swap(i, j);
    }
}

/// Lists in random order that have a build: m words of l letters, in spans up to this width.
pub fn with_build(random: &mut Random, l: usize, m: usize, letters: usize, wide: usize) -> Lists {
    let sequence = sequence(random, l, m, letters);
    let mut lists = around(random, l, &words_in(&sequence, l), 1, wide);
    shuffle(random, &mut lists);
    lists
}

/// Sound lists, as with a build, but with the words or the spans of a few entries drawn anew.
pub fn perhaps_without(random: &mut Random, l: usize, m: usize, letters: usize) -> Lists {
    let wide = random.between(1, usize::from(SPAN_WIDTH));
    disturbed(random, l, m, letters, wide)
}

/// The same in spans up to this width.
pub fn disturbed(random: &mut Random, l: usize, m: usize, letters: usize, wide: usize) -> Lists {
    let mut lists = with_build(random, l, m, letters, wide);
    for _ in 0..random.between(1, 2) {
        let i = random.below(m);
        if random.once_in(2) {
            lists.words[i] = words_in(&sequence(random, l, 1, letters), l)[0];
        } else {
            let place = random.below(m);
            (lists.ones[i], lists.twos[i]) = window(random, place, m, wide);
        }
    }
    lists
}

/// Lists of these words in random order, every span as wide as it may be.
pub fn widest(random: &mut Random, l: usize, words: &[u32]) -> Lists {
    let width = usize::from(SPAN_WIDTH);
    let mut lists = around(random, l, words, width, width);
    shuffle(random, &mut lists);
    lists
}

/// The words of a sequence, of which one is drawn anew, as if it had been misread.
pub fn misread(random: &mut Random, l: usize, m: usize, letters: usize) -> Vec<u32> {
    let mut words = words_in(&sequence(random, l, m, letters), l);
    words[random.below(m)] = random.below(1 << (2 * l)) as u32;
    words
}

/// Lists that have no build, though every place but the last has many words to try.
pub fn without_end(random: &mut Random, l: usize, m: usize) -> Lists {
    let words = words_without_end(random, l, m);
    widest(random, l, &words)
}

/// Words of which the last is of Ts alone, and no other ends in T.
pub fn words_without_end(random: &mut Random, l: usize, m: usize) -> Vec<u32> {
    let mut words = words_in(&sequence(random, l, m, 2), l);
    words[m - 1] = (1 << (2 * l)) - 1;
    words
}

/// Lists of few different words in wide spans, of which many have a walk that is long.
pub fn any_long(random: &mut Random) -> Lists {
    let l = random.between(2, 4);
    let m = random.between(20, usize::from(MOST_ENTRIES));
    match random.below(4) {
        0 => without_end(random, l, m),
        1 => crowded(random),
        turn => {
            let words = match turn {
                2 => misread(random, l, m, 2),
                _ => words_in(&sequence(random, l, m, 2), l),
            };
            widest(random, l, &words)
        }
    }
}

/// Lists of which the last entries share one span that is too short for them, so that its places have long lists.
fn crowded(random: &mut Random) -> Lists {
    let l = random.between(2, 3);
    let (chain, lump) = (random.between(2, 24), random.between(9, 24));
    let words = words_in(&sequence(random, l, chain + lump, 3), l);
    let mut lists = around(random, l, &words, 8, 8);
    for entry in chain..chain + lump {
        (lists.ones[entry], lists.twos[entry]) = (chain as u16, chain as u16 + 7);
    }
    shuffle(random, &mut lists);
    lists
}

/// Any sound lists: most have a build, most are of few entries, and some take many placements.
pub fn any_spans(random: &mut Random) -> Lists {
    match random.below(4) {
        0 => any_widest(random),
        _ => any_widths(random),
    }
}

/// Lists of few different words in the widest spans, of which half have a word that was misread.
fn any_widest(random: &mut Random) -> Lists {
    let l = random.between(2, 4);
    let m = random.between(6, 40);
    let letters = random.between(2, 3);
    let words = match random.below(2) {
        0 => words_in(&sequence(random, l, m, letters), l),
        _ => misread(random, l, m, letters),
    };
    widest(random, l, &words)
}

/// Lists of any l and m in spans of any width.
fn any_widths(random: &mut Random) -> Lists {
    let (l, m) = any_size(random);
    let letters = random.between(1, 4);
    let wide = random.between(1, usize::from(SPAN_WIDTH));
    match random.below(8) {
        0..=4 => with_build(random, l, m, letters, wide),
        _ => perhaps_without(random, l, m, letters),
    }
}

/// Any l and m, mostly small ones.
pub fn any_size(random: &mut Random) -> (usize, usize) {
    let l = match random.below(8) {
        0..=5 => random.between(2, 4),
        _ => random.between(5, usize::from(MOST_LETTERS)),
    };
    let m = match random.below(64) {
        0 => random.between(120, usize::from(MOST_ENTRIES)),
        1..=5 => random.between(25, 120),
        6..=20 => random.between(10, 24),
        _ => random.between(1, 9),
    };
    (l, m)
}
