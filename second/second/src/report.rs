//! What the programs print: `build` and `settle` for a card, the line that says how many builds it has, a list or a card for the other, and the
//! FASTA record of a card's one build.

use crate::build::{build, Built};
use crate::count::{count_card, Count};
use crate::fasta;
use crate::numbers::{BESIDE_THE_WORD, LINE_LETTERS, LONGEST_NAME, MOST_ENTRIES, MOST_LETTERS};
use crate::probe_list::{export, import};
use crate::profile::{Kind, Profile};
use crate::reader;
use crate::refusal::Refusal;
use crate::settle::settle_card;
use crate::verdict::Verdict;

/// The budget that `build` uses.
pub const BUDGET: u32 = 1_000_000;

/// The most bytes of a list that the program which imports takes.
pub const MOST_BYTES: usize = 1_048_576;

/// The lines of `build` for a card, each ended by a newline; all of the input is the card.
pub fn report(card: &[u8]) -> String {
    lines(card, |out| build(card, BUDGET, out))
}

/// The lines of `settle` for a card, each ended by a newline; all of the input is the card.
pub fn settled(card: &[u8]) -> String {
    lines(card, |out| settle_card(card, out))
}

/// The line for the number of builds of a pair card, ended by a newline; all of the input is the card.
pub fn count_line(card: &[u8]) -> String {
    match count_card(card) {
        Ok(Count::None) => "builds 0\n".to_string(),
        Ok(Count::Power(exponent)) => format!("builds 2^{exponent}\n"),
        Err(refusal) => refused(refusal),
    }
}

/// The card of a list, or the one line that says why there is none; all of the input is the list.
pub fn card_of_list(list: &[u8]) -> Result<Vec<u8>, String> {
    if list.len() > MOST_BYTES {
        return Err(format!("list2card: more than {MOST_BYTES} bytes\n"));
    }
    let largest = Profile {
        kind: Kind::Span,
        l: MOST_LETTERS,
        m: MOST_ENTRIES,
    };
    start_of(largest.size(), |out| import(list, out))
}

/// The list of a card, or the one line that says why there is none; all of the input is the card.
pub fn list_of_card(card: &[u8]) -> Result<Vec<u8>, String> {
    let longest_line = usize::from(MOST_LETTERS) + BESIDE_THE_WORD;
    let longest = usize::from(MOST_ENTRIES) * longest_line;
    start_of(longest, |out| export(card, out))
}

/// The FASTA record of the one build of a card under this name, or the one line that says why there is none; all of the input is the card.
///
/// That line is the second one of `build` where there is not one build, so
/// that the name is not looked at, and else that of a refusal.
pub fn fasta_of_card(card: &[u8], name: &[u8]) -> Result<Vec<u8>, String> {
    let profile = reader::admit(card).map_err(refused)?;
    let mut letters = vec![0; profile.build_length()];
    let built = build(card, BUDGET, &mut letters).map_err(refused)?;
    if built.verdict != Verdict::Sole {
        return Err(verdict_line(built, &letters));
    }
    let breaks = 1 + letters.len().div_ceil(LINE_LETTERS);
    let longest = 1 + LONGEST_NAME + letters.len() + breaks;
    start_of(longest, |out| fasta::write(name, &letters, out))
}

/// What a call puts at the start of an output of this room, or the one line for its refusal.
fn start_of(
    room: usize,
    call: impl FnOnce(&mut [u8]) -> Result<usize, Refusal>,
) -> Result<Vec<u8>, String> {
    let mut out = vec![0; room];
    let length = call(&mut out).map_err(refused)?;
    out.truncate(length);
    Ok(out)
}

/// The one line for a card that is refused, or a list.
fn refused(refusal: Refusal) -> String {
    format!("refused {} {}\n", refusal.number(), refusal.place)
}

/// The lines for a card that this builds from.
fn lines(card: &[u8], build: impl FnOnce(&mut [u8]) -> Result<Built, Refusal>) -> String {
    match two_lines(card, build) {
        Ok(lines) => lines,
        Err(refusal) => refused(refusal),
    }
}

/// The two lines for a card that is not refused.
fn two_lines(
    card: &[u8],
    build: impl FnOnce(&mut [u8]) -> Result<Built, Refusal>,
) -> Result<String, Refusal> {
    let profile = reader::admit(card)?;
    let mut out = vec![0; profile.build_length()];
    let built = build(&mut out)?;
    let kind = match profile.kind {
        Kind::Pair => "pair",
        Kind::Span => "span",
    };
    let (l, m) = (profile.l, profile.m);
    let second_line = verdict_line(built, &out);
    Ok(format!("CARD {kind} {l} {m}\n{second_line}"))
}

/// The line for the verdict on a card, with the letters that the output has of it.
fn verdict_line(built: Built, out: &[u8]) -> String {
    let mut line = built.verdict.name().to_string();
    if built.length > 0 {
        line.push(' ');
        // The letters are capitals of ASCII.
        line.extend(out.iter().map(|&letter| char::from(letter)));
    }
    format!("{line} {}\n", built.placements)
}

#[cfg(test)]
mod tests;
