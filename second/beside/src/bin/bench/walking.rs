//! Building from span cards beside the walk in plain C, which is given the lists.

use std::hint::black_box;

use beside::answers::BuildAnswer;
use beside::plain::walk::Sound;
use beside::{firmware, independent};
use second::cards::Random;
use second::entry::Stored;
use second::letters::spell;
use second::lists::Lists;
use second::numbers::SPAN;
use second::spans::{any_long, misread, sequence, widest, words_in};
use second::verdict::Verdict;
use second::walk::counted::Counted;

use crate::timing::{Beside, Operation, ROUNDS};

/// The most entries of a card.
const M: usize = 504;
/// The budget of the program `build`.
const BUDGET: u32 = 1_000_000;
/// A budget that C would take minutes for.
const LARGE: u32 = 4_000_000_000;
/// The rounds that each side takes on a long walk, and on one where nothing can be remembered.
const LONG_ROUNDS: usize = 31;
const FEW_ROUNDS: usize = 7;

/// A span card, what it lists, and the budgets that the library and C walk it with.
pub struct Sample {
    name: String,
    card: Vec<u8>,
    lists: Lists,
    budget: u32,
    budget_of_c: u32,
    rounds: usize,
}

/// Cards whose walk is only prepared, is easy, settles late, or does not settle.
pub fn samples(random: &mut Random) -> Vec<Sample> {
    let mut samples = Vec::new();
    for (l, letters) in [(2, 2), (12, 4)] {
        let words = misread(random, l, M, letters);
        let lists = widest(random, l, &words);
        samples.push(Sample::new("only prepared", lists, 0));
    }
    for (l, m) in [(12, 60), (6, 120), (4, 252), (4, M), (6, M), (12, M)] {
        samples.push(Sample::new("easy", easy(random, l, m), BUDGET));
    }
    for (from, to) in [(10_000, 100_000), (100_000, BUDGET)] {
        for _ in 0..2 {
            let settles_late = |own: Option<u32>| own.is_some_and(|own| (from..to).contains(&own));
            let lists = long(random, settles_late);
            samples.push(Sample::new("settled late", lists, BUDGET).timed(LONG_ROUNDS));
        }
    }
    for _ in 0..3 {
        let lists = long(random, |own| own.is_none());
        let large = Sample::new("4000000000, C 1000000", lists.clone(), LARGE);
        samples.push(Sample::new("unsettled, 1000000", lists, BUDGET).timed(LONG_ROUNDS));
        samples.push(large.timed(LONG_ROUNDS));
    }
    samples.push(Sample::new("crowded", crowd(), BUDGET).timed(FEW_ROUNDS));
    samples
}

/// Draws lists of a sequence until their walk makes fewer than m placements in vain.
fn easy(random: &mut Random, l: usize, m: usize) -> Lists {
    loop {
        let words = words_in(&sequence(random, l, m, 4), l);
        let lists = widest(random, l, &words);
        let own = counted(&lists).placements();
        if own.is_some_and(|own| own < 2 * m as u32) {
            return lists;
        }
    }
}

/// Lists in which every word stands once or twice, all in one span: a list that is too long for a state to have a key.
fn crowd() -> Lists {
    let mut lists = Lists::empty(usize::from(SPAN), 4);
    for entry in 0..M as u32 {
        lists.push(Stored {
            word: entry % 256,
            one: 0,
            two: 7,
        });
    }
    lists
}

/// Draws lists until the placements of their walk are as wanted; there are none where no budget is as large.
fn long(random: &mut Random, wanted: impl Fn(Option<u32>) -> bool) -> Lists {
    loop {
        let lists = any_long(random);
        if wanted(counted(&lists).placements()) {
            return lists;
        }
    }
}

/// The walk over the lists, counted.
fn counted(lists: &Lists) -> Counted {
    let (profile, entries) = lists.admitted().expect("lists that are drawn sound");
    Counted::new(profile.l, &entries)
}

/// The lists as the C code takes them.
fn sound(lists: &Lists) -> Sound<'_> {
    Sound::new(lists).expect("lists that are drawn sound")
}

impl Sample {
    /// The card of these lists, to be walked with this budget, by C with no more than `BUDGET`.
    fn new(what: &str, lists: Lists, budget: u32) -> Sample {
        let (l, m) = (lists.l, lists.words.len());
        Sample {
            name: format!("walk, l = {l}, m = {m}, {what}"),
            card: lists.card().expect("lists that are drawn sound"),
            lists,
            budget,
            budget_of_c: budget.min(BUDGET),
            rounds: ROUNDS,
        }
    }

    /// The same, timed in so many rounds.
    fn timed(mut self, rounds: usize) -> Sample {
        self.rounds = rounds;
        self
    }

    /// Says whether the library answers as C does, and as `second` counts with the whole budget.
    fn is_agreed_on(&self) -> bool {
        let walk = counted(&self.lists);
        let mut out = vec![0; self.lists.build_length()];
        let second = independent::build_counted(&self.card, &walk, self.budget, &mut out);
        self.by_library(self.budget) == (second, out)
            && self.by_library(self.budget_of_c) == self.by_c()
    }

    /// What the library answers with this budget, and the output after it.
    fn by_library(&self, budget: u32) -> (BuildAnswer, Vec<u8>) {
        let mut out = vec![0; self.lists.build_length()];
        let answer = firmware::build(&self.card, budget, &mut out);
        (answer, out)
    }

    /// What C answers with its budget, put as the library puts it.
    fn by_c(&self) -> (BuildAnswer, Vec<u8>) {
        let mut words = vec![0; self.lists.words.len()];
        let (verdict, placements) = sound(&self.lists).walk(self.budget_of_c, &mut words);
        let mut out = vec![0; self.lists.build_length()];
        let (number, length) = match verdict {
            Verdict::Sole => (1, out.len()),
            Verdict::Several => (2, out.len()),
            Verdict::None => (3, 0),
            Verdict::Unsettled => (4, 0),
        };
        let letters = spell(self.lists.l as u8, &words);
        out[..length].copy_from_slice(&letters[..length]);
        let answer = BuildAnswer {
            verdict: number,
            length,
            placements: placements as usize,
            ..BuildAnswer::default()
        };
        (answer, out)
    }

    /// Building from the card, and walking over the lists in C.
    fn operation(&self) -> Operation<'_> {
        let (card, budget, sound) = (&self.card, self.budget, sound(&self.lists));
        let budget_of_c = self.budget_of_c;
        let mut for_library = vec![0; self.lists.build_length()];
        let mut for_c = [0; M];
        Operation {
            name: self.name.clone(),
            beside: Beside::C,
            rounds: self.rounds,
            calls: 1,
            library: Box::new(move || {
                let out = black_box(&mut for_library);
                _ = black_box(firmware::build(black_box(card), budget, out));
            }),
            other: Box::new(move || {
                let out = black_box(&mut for_c);
                _ = black_box(black_box(sound).walk(budget_of_c, out));
            }),
        }
    }
}

/// The walks on these cards, where all sides agree on them.
pub fn operations(samples: &[Sample]) -> Result<Vec<Operation<'_>>, String> {
    // A time means nothing where they do not agree.
    if let Some(sample) = samples.iter().find(|sample| !sample.is_agreed_on()) {
        return Err(format!(
            "the sides differ on a walk over {:?}",
            sample.lists
        ));
    }
    Ok(samples.iter().map(Sample::operation).collect())
}
