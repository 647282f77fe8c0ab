//! Span lists with one build that the walk finds late, changed step by step.
//!
//! Lists that are drawn at random hardly ever have one build after a long
//! walk, so that stored ones are the start.

use crate::cards::Random;
use crate::entry::Stored;
use crate::lists::Lists;
use crate::numbers::SPAN;
use crate::spans::{sequence, shuffle, window, words_in};
use crate::verdict::Verdict;
use crate::walk::counted::Counted;

/// The placements that the walk takes at least.
pub const LEAST: u32 = 10_000;
/// The letters of the words that are drawn: the fewer, the more the walk tries.
const LETTERS: usize = 2;

/// The lists that are stored, with the placements that are stated of each.
fn stored() -> Vec<(u32, Lists)> {
    parsed(include_str!("late.txt"))
}

/// The lists of a text, with the placements that it states of each: a line of l and placements, then one for each entry.
pub fn parsed(text: &str) -> Vec<(u32, Lists)> {
    let lines = text.lines();
    let mut all: Vec<(u32, Lists)> = Vec::new();
    for line in lines.filter(|line| !line.starts_with('#')) {
        let numbers = line.split(' ').map(|word| word.parse::<u32>());
        let numbers: Vec<u32> = numbers.collect::<Result<_, _>>().expect("numbers");
        match (&numbers[..], all.last_mut()) {
            (&[word, one, two], Some((_, lists))) => lists.push(Stored {
                word,
                one: one as u16,
                two: two as u16,
            }),
            (&[l, placements], _) => {
                all.push((placements, Lists::empty(usize::from(SPAN), l as usize)));
            }
            _ => panic!("a line of stored lists: {line}"),
        }
    }
    all
}

/// Lists that change, and keep one build and a long walk.
pub struct Late {
    lists: Lists,
}

impl Late {
    /// Lists that are stored, in a random order.
    pub fn new(random: &mut Random) -> Late {
        let mut stored = stored();
        let (_, mut lists) = stored.swap_remove(random.below(stored.len()));
        shuffle(random, &mut lists);
        Late { lists }
    }

    /// The lists as they are now.
    pub fn lists(&self) -> &Lists {
        &self.lists
    }

    /// Changes an entry or two, if one build and a long walk are left.
    pub fn step(&mut self, random: &mut Random) {
        let mut lists = self.lists.clone();
        for _ in 0..random.between(1, 2) {
            change(random, &mut lists);
        }
        if sole_after(&lists).is_some_and(|placements| placements >= LEAST) {
            self.lists = lists;
        }
    }
}

/// The placements of lists that have one build.
pub fn sole_after(lists: &Lists) -> Option<u32> {
    let (profile, entries) = lists.admitted().expect("sound lists");
    let found = Counted::new(profile.l, &entries).within(u32::MAX);
    (found.verdict == Verdict::Sole).then_some(found.placements)
}

/// Draws the word or the span of an entry anew, or has two entries change their words.
fn change(random: &mut Random, lists: &mut Lists) {
    let m = lists.words.len();
    let i = random.below(m);
    match random.below(3) {
        0 => {
            let place = random.below(m);
            (lists.ones[i], lists.twos[i]) = window(random, place, m, 8);
        }
        1 => lists.words[i] = words_in(&sequence(random, lists.l, 1, LETTERS), lists.l)[0],
        _ => {
            let other = random.below(m);
            lists.words.swap(i, other);
        }
    }
}

#[cfg(test)]
mod tests {
    use super::{sole_after, stored, Late, LEAST};
    use crate::cards::Random;

    #[test]
    fn the_stored_lists_are_what_is_stated() {
        let all = stored();
        assert_eq!(all.len(), 2);
        for (placements, lists) in all {
            assert!(placements >= LEAST);
            assert_eq!(sole_after(&lists), Some(placements));
        }
    }

    #[test]
    fn steps_lead_on() {
        let mut random = Random::new(1);
        let mut late = Late::new(&mut random);
        let first = late.lists().clone();
        for _ in 0..200 {
            late.step(&mut random);
        }
        assert!(sole_after(late.lists()) >= Some(LEAST));
        assert_ne!(*late.lists(), first);
    }
}
