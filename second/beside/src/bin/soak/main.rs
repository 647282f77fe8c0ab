//! Sets the compiled library beside `second`, call by call.
//!
//! `soak COUNT [SEED]` makes COUNT calls on cards, lists and FASTA records that
//! are drawn from the seed, builds above all. It stops at the first difference with exit
//! status 1. At the end it says how often each answer came, so that a run that
//! tried nothing can be told from one that did.

mod alike;
mod building;
mod counting;
mod exporting;
mod fasta;
mod importing;
mod inputs;
mod lent;
mod lists;
mod neighbours;
mod reading;
mod settling;
mod tally;
mod writing;

use std::fmt::Debug;
use std::process::ExitCode;

use second::cards::{any_card, Random};
use second::late::Late;
use second::spans::any_long;

use alike::Alike;
use inputs::{any_buildable_card, damaged};
use lent::Lent;
use tally::{Tally, SETTLED, VERDICTS};

/// The seed where none is given.
const SEED: u64 = 1;
/// The damaged copies of each sound card.
const COPIES: usize = 2;
/// One turn in so many builds from cards whose walk is long.
const LONG_TURNS: usize = 18;
/// The steps that lists are changed by before each of these turns.
const STEPS: usize = 16;
/// From so many calls on, no answer of a build, of a count, of settling, of lists as texts or of FASTA records may be missing.
const ENOUGH: u64 = 100_000;
/// From so many calls on, none may be missing after a long walk.
const ENOUGH_LONG: u64 = 400_000;

/// What has been compared so far, and how much is wanted.
struct Soak {
    wanted: u64,
    tally: Tally,
    /// Builds from span cards beside those from their pair cards.
    neighbours: Alike,
    /// Builds from narrow cards beside what settling them comes to.
    narrow: Alike,
    /// Lists with one build after a long walk, which change from turn to turn.
    late: Late,
}

impl Soak {
    /// Says whether all wanted calls were made.
    fn is_done(&self) -> bool {
        self.tally.calls() == self.wanted
    }

    /// Makes all wanted calls.
    fn run(&mut self, random: &mut Random) -> Result<(), String> {
        self.run_beyond_the_index(random)?;
        self.run_beyond_the_count(random)?;
        self.import_beyond_the_count(random)?;
        self.fasta_of_many_letters(random)?;
        while !self.is_done() {
            let sound = any_buildable_card(random);
            self.on_card(random, &sound)?;
            for _ in 0..COPIES {
                let copy = damaged(random, &sound);
                self.on_card(random, &copy)?;
            }
            if random.once_in(4) {
                let card = any_card(random);
                self.on_card(random, &card)?;
            }
            self.write(random)?;
            self.count_from_lists(random)?;
            if random.once_in(2) {
                self.count_and_build(random)?;
            }
            if random.once_in(2) {
                self.build_neighbours(random)?;
            }
            if random.once_in(2) {
                self.settle_narrow(random)?;
            }
            self.import_texts(random)?;
            self.fasta(random)?;
            if random.once_in(LONG_TURNS) {
                self.walk_long(random)?;
            }
        }
        Ok(())
    }

    /// Builds from cards whose walk is mostly long.
    fn walk_long(&mut self, random: &mut Random) -> Result<(), String> {
        let long = any_long(random);
        self.build_long(random, &long)?;
        for _ in 0..STEPS {
            self.late.step(random);
        }
        let lists = self.late.lists().clone();
        self.build_long(random, &lists)
    }

    /// Makes all calls on this card.
    fn on_card(&mut self, random: &mut Random, card: &[u8]) -> Result<(), String> {
        if self.is_done() {
            return Ok(());
        }
        let lent = Lent::new(random, card);
        self.build(random, &lent)?;
        self.count(&lent)?;
        self.settle(random, &lent)?;
        self.read(random, &lent)?;
        self.round(random, &lent)?;
        self.export(random, &lent)
    }

    /// Says how often each answer came, and what a long run should not be without.
    fn report(&self) -> Result<(), String> {
        let (neighbours, narrow) = (&self.neighbours, &self.narrow);
        print!(
            "{}{}{}",
            self.tally.lines(),
            neighbours.line(),
            narrow.line()
        );
        let calls = self.tally.calls();
        let missing = self.tally.missing();
        let missing = missing.or_else(|| neighbours.missing());
        let missing = missing.or_else(|| narrow.missing());
        let missing = missing.filter(|_| calls >= ENOUGH);
        let short = self.tally.missing_long().filter(|_| calls >= ENOUGH_LONG);
        match missing.or(short) {
            Some(what) => Err(what),
            None => Ok(()),
        }
    }
}

/// Both answers, where they differ.
fn difference<T: Debug + PartialEq>(library: T, second: T) -> Option<String> {
    (library != second).then(|| format!("library {library:?}\nsecond  {second:?}"))
}

/// Says which byte of a card was changed, if there is one.
fn card_changed(card: &Lent<u8>) -> Option<String> {
    let at = card.differs()?;
    Some(format!(
        "byte {at} of the card was changed (guard bytes are outside it)"
    ))
}

/// Says which byte of an output differs from what it must be, if there is one.
fn output_differs(out: &Lent<u8>) -> Option<String> {
    let at = out.differs()?;
    Some(format!(
        "byte {at} of the output differs (guard bytes are outside it)\nlibrary {}\nwanted  {}",
        hex(out.elements()),
        hex(out.wanted()),
    ))
}

/// The bytes in hexadecimal, so that the card can be made again; a very long card is cut.
fn hex(bytes: &[u8]) -> String {
    const SHOWN: usize = 8192;
    let shown = bytes.iter().take(SHOWN);
    let mut text: String = shown.map(|byte| format!("{byte:02x}")).collect();
    if bytes.len() > SHOWN {
        text.push_str(" and more");
    }
    text
}

/// The wanted calls and the seed, if the arguments are in order.
fn arguments() -> Option<(u64, u64)> {
    let arguments: Vec<String> = std::env::args().skip(1).collect();
    match arguments.as_slice() {
        [count] => Some((count.parse().ok()?, SEED)),
        [count, seed] => Some((count.parse().ok()?, seed.parse().ok()?)),
        _ => None,
    }
}

fn main() -> ExitCode {
    let Some((wanted, seed)) = arguments() else {
        eprintln!("usage: soak COUNT [SEED]");
        return ExitCode::from(2);
    };
    let mut random = Random::new(seed);
    let mut soak = Soak {
        wanted,
        tally: Tally::default(),
        neighbours: Alike::new("Neighbours", ["pairs", "spans"], SETTLED),
        narrow: Alike::new("Narrow", ["settle", "build"], VERDICTS.len()),
        late: Late::new(&mut random),
    };
    if let Err(what) = soak.run(&mut random) {
        println!("soak: difference with seed {seed}, {what}");
        return ExitCode::FAILURE;
    }
    if let Err(what) = soak.report() {
        println!("soak: a hollow run, {what}");
        return ExitCode::FAILURE;
    }
    println!("soak: {} calls, 0 differences", soak.tally.calls());
    ExitCode::SUCCESS
}
