//! Lists of narrow spans, at most 4 wide, for tests of settling, drawn from a seed.

#[cfg(test)]
mod tests;

use crate::cards::Random;
use crate::entry::Stored;
use crate::late::parsed;
use crate::layers::layers;
use crate::letters::{codes, spell};
use crate::lists::Lists;
use crate::numbers::{MOST_OVER, NARROW_WIDTH, SPAN};
use crate::spans::{
    any_size, around, disturbed, misread, sequence, shuffle, window, with_build, words_in,
    words_without_end,
};

/// The widest narrow span.
pub const WIDE: usize = NARROW_WIDTH as usize;
/// The places on each side of one whose entries can all be over it.
const REACH: usize = WIDE - 1;

/// Any sound lists of narrow spans: most are of few entries, and every verdict is common.
pub fn any_narrow(random: &mut Random) -> Lists {
    let (l, m) = any_size(random);
    let letters = random.between(1, 4);
    match random.below(8) {
        0 => any_widest(random),
        1 => crowded(random, l, m, letters),
        2 => overcrowded(random, l, m.max(MOST_OVER + 1), letters),
        3..=4 => narrow_disturbed(random, l, m, letters),
        _ => {
            let wide = random.between(1, WIDE);
            with_build(random, l, m, letters, wide)
        }
    }
}

/// Such lists with the words or the spans of a few entries drawn anew.
fn narrow_disturbed(random: &mut Random, l: usize, m: usize, letters: usize) -> Lists {
    let wide = random.between(1, WIDE);
    disturbed(random, l, m, letters, wide)
}

/// Lists of few different words, every span as wide as a narrow one may be; some have no build.
pub fn any_widest(random: &mut Random) -> Lists {
    let l = random.between(2, 3);
    let m = random.between(6, 60);
    let words = match random.below(3) {
        0 => words_in(&sequence(random, l, m, 2), l),
        1 => misread(random, l, m, 2),
        _ => words_without_end(random, l, m),
    };
    widest(random, l, &words)
}

/// Lists of these words in random order, every span as wide as a narrow one may be.
pub fn widest(random: &mut Random, l: usize, words: &[u32]) -> Lists {
    let mut lists = around(random, l, words, WIDE, WIDE);
    shuffle(random, &mut lists);
    lists
}

/// Lists without a build, though every place but the last has many words to try, in spans of the greatest width.
pub fn without_end(random: &mut Random, l: usize, m: usize) -> Lists {
    let words = words_without_end(random, l, m);
    widest(random, l, &words)
}

/// Lists that have a build, with places that as many spans are over as a build allows.
///
/// Of seven entries that follow each other all are over the place in their
/// middle; what is left over at the end has any spans.
pub fn crowded(random: &mut Random, l: usize, m: usize, letters: usize) -> Lists {
    let words = words_in(&sequence(random, l, m, letters), l);
    let mut lists = around(random, l, &words, 1, WIDE);
    for middle in (REACH..m.saturating_sub(REACH)).step_by(MOST_OVER) {
        for place in middle - REACH..=middle + REACH {
            (lists.ones[place], lists.twos[place]) = over_both(random, place, middle, m);
        }
    }
    shuffle(random, &mut lists);
    lists
}

/// Lists that were crowded, of which one more entry is over the place in the middle of the first seven.
pub fn overcrowded(random: &mut Random, l: usize, m: usize, letters: usize) -> Lists {
    let mut lists = crowded(random, l, m, letters);
    let middle = REACH as u16;
    let is_over = |lists: &Lists, i: usize| (lists.ones[i]..=lists.twos[i]).contains(&middle);
    let mut others: Vec<usize> = (0..m).collect();
    others.retain(|&i| !is_over(&lists, i));
    let i = random.pick(&others);
    (lists.ones[i], lists.twos[i]) = window(random, REACH, m, WIDE);
    lists
}

/// The greatest narrow span that holds these two places of m, which are less than four apart.
fn over_both(random: &mut Random, one: usize, other: usize, m: usize) -> (u16, u16) {
    let (low, high) = (one.min(other), one.max(other));
    let first = random.between(high.saturating_sub(REACH), low.min(m - WIDE));
    (first as u16, (first + REACH) as u16)
}

/// Lists that are stored, with one build, and the placements of their walk: more than the program `build` makes.
pub fn late() -> (u32, Lists) {
    let mut stored = parsed(include_str!("narrow.txt"));
    stored.pop().expect("stored lists")
}

/// The lists that are stored, over and over, with one build of m words.
///
/// The words between one copy and the next, and those after the last, have one
/// place each, so that every copy is walked to its end before the next.
pub fn late_again(m: usize) -> Lists {
    let (_, part) = late();
    let (profile, entries) = part.admitted().expect("sound lists");
    let sequence = spell(profile.l, &layers(profile.l, &entries).words);
    let letters = codes(&sequence).expect("letters");
    let cycle: Vec<u32> = letters
        .iter()
        .copied()
        .cycle()
        .take(m + part.l - 1)
        .collect();
    let words = words_in(&cycle, part.l);
    let mut lists = Lists::empty(usize::from(SPAN), part.l);
    while lists.words.len() < m {
        let place = lists.words.len();
        match place % letters.len() {
            0 if place + entries.len() <= m => push_after(&mut lists, &part),
            _ => lists.push(Stored {
                word: words[place],
                one: place as u16,
                two: place as u16,
            }),
        }
    }
    lists
}

/// Puts all entries of other lists after those that are there, at the places that follow.
pub fn push_after(lists: &mut Lists, part: &Lists) {
    let before = lists.words.len() as u16;
    for i in 0..part.words.len() {
        let Stored { word, one, two } = part.get(i);
        let (one, two) = (one + before, two + before);
        lists.push(Stored { word, one, two });
    }
}

/// The number of spans over the place that has the most.
pub fn most_over(lists: &Lists) -> usize {
    let m = lists.words.len() as u16;
    let over = |place: u16| {
        let mut spans = 0;
        for (&one, &two) in lists.ones.iter().zip(&lists.twos) {
            spans += usize::from((one..=two).contains(&place));
        }
        spans
    };
    (0..m).map(over).max().unwrap_or(0)
}

/// Small lists whose every span and word is drawn, of the letters A and C alone.
pub fn few_words(random: &mut Random) -> Lists {
    let m = random.between(2, 8);
    let mut lists = Lists::empty(usize::from(SPAN), 2);
    for _ in 0..m {
        let word = random.pick(&[0, 1, 1, 4, 4, 5]);
        let place = random.below(m);
        let width = random.between(1, WIDE);
        let (one, two) = window(random, place, m, width);
        lists.push(Stored { word, one, two });
    }
    lists
}
