//! What calls on lists are given, for tests: sound and damaged lists, drawn from a seed.
//!
//! Nothing here judges the lists: damage may by chance leave them sound.

use crate::build::{self, Built};
use crate::cards::{any_count, Draft, Random};
use crate::count::{count_lists, Count};
use crate::entry::{Entry, Stored};
use crate::given::Given;
use crate::numbers::{
    BLOCK, ENTRIES_PER_BLOCK, MOST_ENTRIES, MOST_LETTERS, NO_PLACE, SPAN_WIDTH, THE_FORM,
};
use crate::profile::{Kind, Profile};
use crate::reader;
use crate::refusal::Refusal;
use crate::settle::settle_lists;
use crate::verdict::Found;
use crate::writer;

/// The most elements of a list that is drawn.
pub const LONGEST_LIST: u16 = 600;

/// What a call on lists is given, sound or not.
#[derive(Clone, Debug, PartialEq, Eq)]
pub struct Lists {
    /// The kind's number.
    pub kind: usize,
    /// The letters of each word.
    pub l: usize,
    /// The words.
    pub words: Vec<u32>,
    /// Place one of each entry.
    pub ones: Vec<u16>,
    /// Place two of each entry.
    pub twos: Vec<u16>,
}

impl Lists {
    /// The lists of this kind and l that hold nothing.
    pub fn empty(kind: usize, l: usize) -> Lists {
        Lists {
            kind,
            l,
            words: Vec::new(),
            ones: Vec::new(),
            twos: Vec::new(),
        }
    }

    /// What the draft's kind, l and entries are as lists.
    pub fn of_draft(draft: &Draft) -> Lists {
        let mut lists = Lists::empty(usize::from(draft.kind), usize::from(draft.l));
        for &stored in &draft.entries {
            lists.push(stored);
        }
        lists
    }

    /// What a card's kind, l and entries are as lists, where the reader admits it.
    pub fn of_card(card: &[u8]) -> Result<Lists, Refusal> {
        let mut words = vec![0; usize::from(MOST_ENTRIES)];
        let mut ones = vec![0; words.len()];
        let mut twos = vec![0; words.len()];
        let profile = reader::admit_into(card, &mut words, &mut ones, &mut twos)?;
        let m = usize::from(profile.m);
        words.truncate(m);
        ones.truncate(m);
        twos.truncate(m);
        Ok(Lists {
            kind: usize::from(profile.kind.number()),
            l: usize::from(profile.l),
            words,
            ones,
            twos,
        })
    }

    /// Sound lists of this kind, l and m, with random words and places.
    pub fn sound(random: &mut Random, kind: Kind, l: u8, m: u16) -> Lists {
        Lists::of_draft(&Draft::sound(random, kind, l, m))
    }

    /// The card that they ask for, where its fields can hold it and the lists are of one length.
    pub fn draft(&self) -> Option<Draft> {
        let m = self.words.len();
        if self.ones.len() != m || self.twos.len() != m {
            return None;
        }
        Some(Draft {
            form: THE_FORM,
            kind: u8::try_from(self.kind).ok()?,
            l: u8::try_from(self.l).ok()?,
            m: u16::try_from(m).ok()?,
            entries: (0..m).map(|i| self.get(i)).collect(),
        })
    }

    /// The bytes of a card with an entry for each of the words.
    pub fn size(&self) -> usize {
        (1 + self.words.len().div_ceil(ENTRIES_PER_BLOCK)) * BLOCK
    }

    /// The letters of a build with all of the words, where l is sound.
    pub fn build_length(&self) -> usize {
        self.words.len() + self.l - 1
    }

    /// Entry i, which all three lists have.
    pub fn get(&self, i: usize) -> Stored {
        Stored {
            word: self.words[i],
            one: self.ones[i],
            two: self.twos[i],
        }
    }

    /// Puts entry i, which all three lists have.
    pub fn put(&mut self, i: usize, stored: Stored) {
        self.words[i] = stored.word;
        self.ones[i] = stored.one;
        self.twos[i] = stored.two;
    }

    /// Puts one more element at the end of each list.
    pub fn push(&mut self, stored: Stored) {
        self.words.push(stored.word);
        self.ones.push(stored.one);
        self.twos.push(stored.two);
    }

    /// Gives the lists these lengths; elements that are added are 0.
    pub fn resize(&mut self, words: usize, ones: usize, twos: usize) {
        self.words.resize(words, 0);
        self.ones.resize(ones, 0);
        self.twos.resize(twos, 0);
    }

    /// The three lists as they are lent to a call.
    pub fn given(&self) -> Given<'_> {
        Given {
            words: &self.words,
            ones: &self.ones,
            twos: &self.twos,
        }
    }

    /// Has the writer write them.
    pub fn write(&self, out: &mut [u8]) -> Result<usize, Refusal> {
        writer::write(self.kind, self.l, &self.words, &self.ones, &self.twos, out)
    }

    /// Their card, which the writer writes, or the writer's refusal.
    pub fn card(&self) -> Result<Vec<u8>, Refusal> {
        let mut card = vec![0; self.size()];
        self.write(&mut card)?;
        Ok(card)
    }

    /// What sound lists say: kind, l and m, and the entries.
    pub fn admitted(&self) -> Result<(Profile, Vec<Entry>), Refusal> {
        self.given().admitted(self.kind, self.l)
    }

    /// How many builds they have.
    pub fn count(&self) -> Result<Count, Refusal> {
        count_lists(self.kind, self.l, &self.words, &self.ones, &self.twos)
    }

    /// Settles them, where their spans are narrow.
    pub fn settle(&self, out: &mut [u8]) -> Result<Built, Refusal> {
        let Given { words, ones, twos } = self.given();
        settle_lists(self.kind, self.l, words, ones, twos, out)
    }

    /// What is found of the builds of sound lists.
    pub fn find(&self, budget: u32) -> Found {
        let (profile, entries) = self.admitted().expect("lists that are sound");
        build::find(&profile, &entries, budget)
    }
}

/// Sound lists of random kind, l and m.
pub fn any_sound_lists(random: &mut Random) -> Lists {
    let kind = random.pick(&[Kind::Pair, Kind::Span]);
    let l = random.between(2, usize::from(MOST_LETTERS)) as u8;
    let m = any_count(random);
    Lists::sound(random, kind, l, m)
}

/// Any lists: sound ones, some with one to three faults, and some with random places.
pub fn any_lists(random: &mut Random) -> Lists {
    let mut lists = any_sound_lists(random);
    match random.below(8) {
        0..=2 => {}
        3 => {
            let m = lists.words.len();
            for place in lists.ones.iter_mut().chain(&mut lists.twos) {
                *place = random.below(m + 1) as u16;
            }
        }
        _ => {
            for _ in 0..random.between(1, 3) {
                damage(random, &mut lists);
            }
        }
    }
    lists
}

/// Any room for the lists' card: mostly the card's size or a byte beside it.
pub fn any_room(random: &mut Random, lists: &Lists) -> usize {
    let size = lists.size();
    match random.below(8) {
        0..=2 => size,
        3 => size - 1,
        4 => size + 1,
        5 => random.below(size),
        6 => size + random.below(BLOCK),
        _ => random.pick(&[0, 1, BLOCK, size - BLOCK, size + BLOCK]),
    }
}

/// Damages the lists in one way.
pub fn damage(random: &mut Random, lists: &mut Lists) {
    let drawn = random.draw() as usize;
    match random.below(12) {
        0 => lists.kind = odd_number(random),
        1 => lists.l = odd_number(random),
        2..=3 => spoil_a_length(random, lists),
        4 => {
            let m = random.pick(&[0, 1, 504, 505, 506, 512, 567, 600]);
            lists.resize(m, m, m);
        }
        // Entry i is any that all three lists have, and the first or the last as often.
        turn => {
            let m = lists
                .words
                .len()
                .min(lists.ones.len())
                .min(lists.twos.len());
            let Some(last) = m.checked_sub(1) else {
                return;
            };
            let i = random.pick(&[0, last, drawn % m]);
            match turn {
                5..=6 => spoil_a_word(random, lists, i),
                _ => spoil_places(random, lists, i),
            }
        }
    }
}

/// Numbers to try as a kind or as l; the low part of many would be in order by itself.
pub fn odd_numbers() -> Vec<usize> {
    let mut numbers = vec![usize::MAX];
    for high in [0, 1 << 8, 1 << 16, 1 << 32, 1 << 63] {
        let lows = [0, 1, 2, 3, 4, 11, 12, 13, 14, 127, 128, 255];
        numbers.extend(lows.map(|low| high + low));
    }
    numbers
}

/// An odd number, or a random one.
fn odd_number(random: &mut Random) -> usize {
    match random.below(8) {
        0 => random.draw() as usize,
        _ => random.pick(&odd_numbers()),
    }
}

/// Gives one of the lists another length.
fn spoil_a_length(random: &mut Random, lists: &mut Lists) {
    let longest = usize::from(LONGEST_LIST);
    let (a, b, c) = (lists.words.len(), lists.ones.len(), lists.twos.len());
    let mut spoilt = |length: usize| match random.below(4) {
        0 => length.saturating_sub(1),
        1 => (length + 1).min(longest),
        2 => random.below(length + 1),
        _ => random.pick(&[0, 1, 504, 505, longest]),
    };
    let (x, y, z) = (spoilt(a), spoilt(b), spoilt(c));
    match random.below(3) {
        0 => lists.resize(x, b, c),
        1 => lists.resize(a, y, c),
        _ => lists.resize(a, b, z),
    }
}

/// Spoils the word of entry i.
fn spoil_a_word(random: &mut Random, lists: &mut Lists, i: usize) {
    let letters = lists.l.clamp(2, usize::from(MOST_LETTERS));
    let edge = 1u32 << (2 * letters);
    let high = lists.words[i] | 1 << 31;
    let drawn = random.draw() as u32;
    lists.words[i] = random.pick(&[edge - 1, edge, edge + 1, edge << 1, high, u32::MAX, drawn]);
}

/// Spoils the places of entry i.
fn spoil_places(random: &mut Random, lists: &mut Lists, i: usize) {
    let m = lists.words.len() as u16;
    let drawn = random.draw() as u16;
    let edge = random.pick(&[m.wrapping_sub(1), m, m + 1, 0, NO_PLACE, drawn]);
    let Stored { word, one, two } = lists.get(i);
    let (one, two) = match random.below(6) {
        0 => (edge, two),
        1 => (one, edge),
        2 => (two, one),
        3 => (one, one),
        4 => (one, one.wrapping_add(SPAN_WIDTH - 1)),
        _ => (one, one.wrapping_add(SPAN_WIDTH)),
    };
    lists.put(i, Stored { word, one, two });
}
