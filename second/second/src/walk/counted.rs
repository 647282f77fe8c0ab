//! What the walk comes to, without walking it: each state that it meets is counted once.
//!
//! How the walk goes on from a place depends on the last letters before it and
//! on which entries are used. An unused entry has not ended before the place,
//! since it would have been due there, and a used one that has ended is of no
//! more account. So the used ones that reach to the place tell the state, and
//! a walk of any length is counted in as many steps as there are states.

use std::collections::HashMap;
use std::rc::Rc;

use super::Walk;
use crate::entry::Entry;
use crate::verdict::{Found, Verdict};

/// What a whole walk comes to.
pub struct Counted {
    verdict: Verdict,
    /// The placements up to the verdict; the largest number stands for every larger one.
    placements: u64,
    /// The words of the first build, if there is one.
    words: Vec<u32>,
}

impl Counted {
    /// Counts the walk over the entries of a span card whose words have l letters.
    pub fn new(l: u8, entries: &[Entry]) -> Counted {
        let mut walk = Walk::new(l, entries, 0);
        let part = walk.part(&mut HashMap::new());
        let placements = match part.builds[..] {
            [_, (second, _)] => second,
            _ => part.placements,
        };
        let first = part.builds.first();
        Counted {
            verdict: Verdict::of_count(part.builds.len()),
            placements,
            words: first.map_or(Vec::new(), |(_, row)| words_of(row)),
        }
    }

    /// The placements up to the verdict, if a budget can be as large.
    pub fn placements(&self) -> Option<u32> {
        self.placements.try_into().ok()
    }

    /// What the walk finds with this budget.
    pub fn within(&self, budget: u32) -> Found {
        match self.placements() {
            Some(placements) if placements <= budget => {
                Found::new(self.verdict, placements, &self.words)
            }
            _ => Found::new(Verdict::Unsettled, budget, &[]),
        }
    }
}

/// A state of the walk: the place, the last letters before it, and the used entries that reach to it.
type State = (usize, Option<u32>, Vec<usize>);

/// The words from a place on, if there are any.
type Row = Option<Rc<Word>>;

/// A word, and those after it.
struct Word {
    word: u32,
    rest: Row,
}

/// What the walk does from a state on.
struct Part {
    /// All placements, where there are fewer than two builds.
    placements: u64,
    /// The first two builds, as far as there are so many: the placements up to each, and its words from there on.
    builds: Vec<(u64, Row)>,
}

impl Walk<'_> {
    /// What the walk does from its state on, taken from what is known of it or counted.
    fn part(&mut self, known: &mut HashMap<State, Rc<Part>>) -> Rc<Part> {
        let state = self.state();
        if let Some(part) = known.get(&state) {
            return Rc::clone(part);
        }
        let part = Rc::new(self.count(known));
        known.insert(state, Rc::clone(&part));
        part
    }

    /// Counts what the walk does from its state on.
    fn count(&mut self, known: &mut HashMap<State, Rc<Part>>) -> Part {
        let mut all = Part {
            placements: 0,
            builds: Vec::new(),
        };
        if self.row.len() == self.entries.len() {
            all.builds.push((0, None));
            return all;
        }
        for entry in self.tried() {
            self.put(entry);
            let below = self.part(known);
            self.take_back(entry);
            all.add(self.entries[entry].word, &below);
            if all.builds.len() == 2 {
                break;
            }
        }
        all
    }

    /// The state that it is in.
    fn state(&self) -> State {
        let place = self.row.len();
        let tail = self.row.last().map(|word| word % self.tails);
        let reaches =
            |&entry: &usize| self.used[entry] && self.entries[entry].places.last() >= place;
        (
            place,
            tail,
            (0..self.entries.len()).filter(reaches).collect(),
        )
    }
}

impl Part {
    /// Adds the placement of a word, and what the walk does below it.
    fn add(&mut self, word: u32, below: &Part) {
        let placed = self.placements.saturating_add(1);
        for (after, rest) in below.builds.iter().take(2 - self.builds.len()) {
            let rest = rest.clone();
            let row = Some(Rc::new(Word { word, rest }));
            self.builds.push((placed.saturating_add(*after), row));
        }
        self.placements = placed.saturating_add(below.placements);
    }
}

/// The words of a row.
fn words_of(row: &Row) -> Vec<u32> {
    let mut words = Vec::new();
    let mut left = row;
    while let Some(word) = left {
        words.push(word.word);
        left = &word.rest;
    }
    words
}

#[cfg(test)]
mod tests {
    use super::Counted;
    use crate::cards::Random;
    use crate::lists::Lists;
    use crate::spans::{any_spans, around, without_end};
    use crate::verdict::{Found, Verdict};

    /// The count of sound lists.
    fn counted(lists: &Lists) -> Counted {
        let (profile, entries) = lists.admitted().expect("sound lists");
        Counted::new(profile.l, &entries)
    }

    #[test]
    fn any_lists_as_the_walk_finds_them() {
        let mut random = Random::new(11);
        for _ in 0..4000 {
            let lists = any_spans(&mut random);
            let counted = counted(&lists);
            let mut budgets = vec![0, 7, 2000];
            if let Some(own) = counted.placements().filter(|&own| own <= 20_000) {
                budgets.extend([own, own + 1, own.saturating_sub(1), u32::MAX]);
            }
            for budget in budgets {
                assert_eq!(
                    counted.within(budget),
                    lists.find(budget),
                    "{budget} {lists:?}"
                );
            }
        }
    }

    #[test]
    fn more_than_any_budget() {
        // Every place but the last has words to try, and the last has none.
        let lists = without_end(&mut Random::new(2), 2, 300);
        let counted = counted(&lists);
        assert_eq!(counted.placements(), None);
        let unsettled = Found::new(Verdict::Unsettled, u32::MAX, &[]);
        assert_eq!(counted.within(u32::MAX), unsettled);
    }

    #[test]
    fn a_full_card_of_one_word() {
        let lists = around(&mut Random::new(1), 2, &[0; 504], 8, 8);
        let counted = counted(&lists);
        assert_eq!(
            counted.within(504),
            Found::new(Verdict::Sole, 504, &[0; 504])
        );
        assert_eq!(
            counted.within(503),
            Found::new(Verdict::Unsettled, 503, &[])
        );
    }
}
