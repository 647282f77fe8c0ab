//! How often each answer came.

use std::fmt::Write;

use beside::answers::{BuildAnswer, CountAnswer};

/// What is called.
#[derive(Clone, Copy, Debug)]
pub enum Operation {
    Build,
    Count,
    CountLists,
    Settle,
    SettleLists,
    Admit,
    Entry,
    Step,
    Companion,
    Fetch,
    Write,
    Import,
    Export,
    WriteFasta,
    ReadFasta,
}

/// All of them, in the order of their lines.
const OPERATIONS: [Operation; 15] = [
    Operation::Build,
    Operation::Count,
    Operation::CountLists,
    Operation::Settle,
    Operation::SettleLists,
    Operation::Admit,
    Operation::Entry,
    Operation::Step,
    Operation::Companion,
    Operation::Fetch,
    Operation::Write,
    Operation::Import,
    Operation::Export,
    Operation::WriteFasta,
    Operation::ReadFasta,
];
/// The names of the verdicts, from number 1 on.
pub const VERDICTS: [&str; 4] = ["sole", "several", "none", "unsettled"];
/// The verdicts that settle, which are the first of all.
pub const SETTLED: usize = 3;
/// The refusals have numbers from 1 up to this one.
const LAST_REFUSAL: usize = 30;
/// The refusals that a build has.
const OF_BUILD: [usize; 12] = [1, 2, 3, 4, 5, 6, 7, 8, 9, 10, 11, 12];
/// The refusals that a count from a card has.
const OF_COUNT: [usize; 11] = [1, 2, 3, 4, 5, 6, 7, 8, 9, 10, 11];
/// The refusals that a count from lists has.
const OF_LISTS: [usize; 6] = [5, 6, 7, 10, 11, 13];
/// The refusals that settling a card has.
const OF_SETTLE: [usize; 13] = [1, 2, 3, 4, 5, 6, 7, 8, 9, 10, 11, 12, 30];
/// The refusals that settling lists has.
const OF_SETTLE_LISTS: [usize; 8] = [5, 6, 7, 10, 11, 12, 13, 30];
/// The refusals that importing a list has.
const OF_IMPORT: [usize; 8] = [6, 7, 11, 12, 23, 24, 25, 26];
/// The refusals that exporting a card has.
const OF_EXPORT: [usize; 12] = [1, 2, 3, 4, 5, 6, 7, 8, 9, 10, 11, 12];
/// The refusals that writing a FASTA record has.
const OF_WRITE_FASTA: [usize; 3] = [12, 20, 21];
/// The refusals that reading a FASTA record has.
const OF_READ_FASTA: [usize; 4] = [12, 20, 21, 22];
/// What a count says that is not refused: no build, 2^0 builds, or 2 to a higher power.
const COUNTS: [&str; 3] = ["none", "one build", "more"];
/// A walk of more placements is long.
const LONG: usize = 10_000;
/// A higher exponent is high: so many builds do not fit into a machine word.
const HIGH: usize = 64;

/// The answers of each operation so far.
#[derive(Default)]
pub struct Tally {
    calls: u64,
    /// For each operation the answers that are no refusal, at 0, then the refusals by number.
    answers: [[u64; LAST_REFUSAL + 1]; OPERATIONS.len()],
    /// For each operation its verdicts, from number 1 on; nothing for those that do not build.
    verdicts: [[u64; VERDICTS.len()]; OPERATIONS.len()],
    /// For each operation the refusals of a pair card that is sound; nothing for those that take pair cards.
    pairs: [u64; OPERATIONS.len()],
    /// For each operation what its counts said; nothing for those that do not count.
    counts: [[u64; COUNTS.len()]; OPERATIONS.len()],
    /// For each operation the highest exponent of its counts.
    highest: [usize; OPERATIONS.len()],
    /// The placements of all builds.
    placements: u64,
    /// The most placements of a build that was settled.
    longest: usize,
    /// The verdicts after long walks, from number 1 on.
    long: [u64; VERDICTS.len()],
}

impl Tally {
    /// All calls so far.
    pub fn calls(&self) -> u64 {
        self.calls
    }

    /// Counts a call and its answer: the refusal's number, or 0.
    pub fn count(&mut self, operation: Operation, number: usize) {
        self.calls += 1;
        self.answers[operation as usize][number] += 1;
    }

    /// Counts a build, or a call that settles, and its answer.
    pub fn count_build(&mut self, operation: Operation, answer: &BuildAnswer) {
        self.count(operation, answer.number);
        // The number of a verdict is 0 where the call was refused.
        let Some(verdict) = answer.verdict.checked_sub(1) else {
            return;
        };
        self.verdicts[operation as usize][verdict] += 1;
        self.placements += answer.placements as u64;
        if answer.placements > LONG {
            self.long[verdict] += 1;
        }
        if VERDICTS[verdict] != "unsettled" {
            self.longest = self.longest.max(answer.placements);
        }
    }

    /// Counts a sound pair card that was refused because it is one, or the lists of one.
    pub fn count_pairs(&mut self, operation: Operation) {
        self.pairs[operation as usize] += 1;
    }

    /// Counts a count of builds, from a card or from lists, and its answer.
    pub fn count_count(&mut self, operation: Operation, answer: &CountAnswer) {
        self.count(operation, answer.number);
        if answer.number == 0 {
            let said = answer.any + answer.exponent.min(1);
            self.counts[operation as usize][said] += 1;
            let highest = &mut self.highest[operation as usize];
            *highest = answer.exponent.max(*highest);
        }
    }

    /// An answer of a build, of a count, of settling, of lists as texts or of FASTA records that never came, if there is one.
    pub fn missing(&self) -> Option<String> {
        self.missing_verdict(Operation::Build, VERDICTS.len())
            .or_else(|| self.missing_refusal(Operation::Build, &OF_BUILD))
            .or_else(|| self.missing_count(Operation::Count))
            .or_else(|| self.missing_power(Operation::Count))
            .or_else(|| self.missing_refusal(Operation::Count, &OF_COUNT))
            .or_else(|| self.missing_count(Operation::CountLists))
            .or_else(|| self.missing_power(Operation::CountLists))
            .or_else(|| self.missing_refusal(Operation::CountLists, &OF_LISTS))
            .or_else(|| self.missing_settle(Operation::Settle, &OF_SETTLE))
            .or_else(|| self.missing_settle(Operation::SettleLists, &OF_SETTLE_LISTS))
            .or_else(|| self.missing_answer(Operation::Import, &OF_IMPORT))
            .or_else(|| self.missing_answer(Operation::Export, &OF_EXPORT))
            .or_else(|| self.missing_answer(Operation::WriteFasta, &OF_WRITE_FASTA))
            .or_else(|| self.missing_answer(Operation::ReadFasta, &OF_READ_FASTA))
    }

    /// What this operation never answered, if there is such an answer; it has these refusals.
    fn missing_answer(&self, operation: Operation, numbers: &[usize]) -> Option<String> {
        let none = self.answers[operation as usize][0] == 0;
        none.then(|| format!("no {operation:?} was answered"))
            .or_else(|| self.missing_refusal(operation, numbers))
    }

    /// What this operation, which settles, never answered, if there is such an answer; it has these refusals.
    fn missing_settle(&self, operation: Operation, numbers: &[usize]) -> Option<String> {
        let no_pairs = self.pairs[operation as usize] == 0;
        self.missing_verdict(operation, SETTLED)
            .or_else(|| self.missing_refusal(operation, numbers))
            .or_else(|| no_pairs.then(|| format!("no {operation:?} was refused for its pairs")))
    }

    /// One of the first verdicts, as many as this says, that the operation never gave, if there is one.
    fn missing_verdict(&self, operation: Operation, verdicts: usize) -> Option<String> {
        let name = never(&VERDICTS[..verdicts], &self.verdicts[operation as usize])?;
        Some(format!("no {operation:?} was {name}"))
    }

    /// What this operation, which counts, never said, if there is such an answer.
    fn missing_count(&self, operation: Operation) -> Option<String> {
        let name = never(&COUNTS, &self.counts[operation as usize])?;
        Some(format!("no {operation:?} said: {name}"))
    }

    /// Says so where this operation, which counts, never gave a high exponent.
    fn missing_power(&self, operation: Operation) -> Option<String> {
        let is_high = self.highest[operation as usize] > HIGH;
        (!is_high).then(|| format!("no {operation:?} said more than 2^{HIGH} builds"))
    }

    /// One of these refusals that the operation never gave, if there is one.
    fn missing_refusal(&self, operation: Operation, numbers: &[usize]) -> Option<String> {
        let answers = &self.answers[operation as usize];
        let mut numbers = numbers.iter();
        let number = numbers.find(|&&number| answers[number] == 0)?;
        Some(format!("no {operation:?} was refused with {number}"))
    }

    /// A verdict that never came after a long walk, if there is one.
    pub fn missing_long(&self) -> Option<String> {
        let name = never(&VERDICTS, &self.long)?;
        Some(format!("no build was {name} after a long walk"))
    }

    /// A line for each operation: its answers that are no refusal, and its refusals by number.
    pub fn lines(&self) -> String {
        let mut text = String::new();
        for (operation, answers) in OPERATIONS.iter().zip(&self.answers) {
            let calls: u64 = answers.iter().sum();
            _ = write!(text, "{operation:?} {calls}:");
            match operation {
                Operation::Build => text.push_str(&self.builds_came()),
                Operation::Settle | Operation::SettleLists => {
                    text.push_str(&self.settles_came(*operation));
                }
                Operation::Count | Operation::CountLists => {
                    text.push_str(&self.counts_came(*operation));
                }
                _ => _ = write!(text, " answered {},", answers[0]),
            }
            text.push_str(" refused");
            let refusals = answers.iter().enumerate().skip(1);
            for (number, count) in refusals.filter(|&(_, &count)| count > 0) {
                _ = write!(text, " {number}: {count}");
            }
            text.push('\n');
        }
        text
    }

    /// How often this operation, which settles, gave each verdict, and how often it was given pairs.
    fn settles_came(&self, operation: Operation) -> String {
        let mut text = String::new();
        let counts = self.verdicts[operation as usize];
        for (name, count) in VERDICTS.iter().zip(counts).take(SETTLED) {
            _ = write!(text, " {name} {count},");
        }
        _ = write!(text, " pairs {},", self.pairs[operation as usize]);
        text
    }

    /// How often each verdict came from builds, and the placements.
    fn builds_came(&self) -> String {
        let mut text = String::new();
        let counts = self.verdicts[Operation::Build as usize];
        let counts = counts.iter().zip(self.long);
        for (name, (count, long)) in VERDICTS.iter().zip(counts) {
            _ = write!(text, " {name} {count} ({long} long),");
        }
        let (all, longest) = (self.placements, self.longest);
        _ = write!(
            text,
            " placements {all}, at most {longest} up to a verdict,"
        );
        text
    }

    /// How often this operation, which counts, said each thing.
    fn counts_came(&self, operation: Operation) -> String {
        let mut text = String::new();
        for (name, count) in COUNTS.iter().zip(self.counts[operation as usize]) {
            _ = write!(text, " {name} {count},");
        }
        let highest = self.highest[operation as usize];
        _ = write!(text, " at most 2^{highest} builds,");
        text
    }
}

/// The first of these names whose answer never came, if there is one.
pub fn never(names: &[&'static str], came: &[u64]) -> Option<&'static str> {
    let mut answers = names.iter().zip(came);
    let (name, _) = answers.find(|(_, &came)| came == 0)?;
    Some(name)
}
