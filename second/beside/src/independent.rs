//! The answers of `second`, put as the compiled library puts them.

use second::block;
use second::build::{self, Built};
use second::count::{self, Count};
use second::entry::{Entry, Places};
use second::fasta::{self, Parts};
use second::probe_list;
use second::reader::{self, Head};
use second::refusal::Refusal;
use second::settle;
use second::verdict::Verdict;
use second::walk::counted::Counted;
use second::writer;

use crate::answers::{
    Admitted, BuildAnswer, CountAnswer, EntryAnswer, FastaAnswer, Held, Part, StepAnswer,
    WriteAnswer,
};

/// Admits the card.
pub fn admit(card: &[u8]) -> Admitted {
    match reader::admit(card) {
        Ok(profile) => Admitted {
            kind: usize::from(profile.kind.number()),
            l: usize::from(profile.l),
            m: usize::from(profile.m),
            ..Admitted::default()
        },
        Err(refusal) => {
            let (number, place) = number_and_place(refusal);
            Admitted {
                number,
                place,
                ..Admitted::default()
            }
        }
    }
}

/// Fetches entry i.
pub fn entry(card: &[u8], i: usize) -> EntryAnswer {
    match reader::entry(card, i) {
        Ok(entry) => {
            let (shape, first, second) = shape_and_places(entry);
            EntryAnswer {
                shape,
                word: entry.word as usize,
                first,
                second,
                ..EntryAnswer::default()
            }
        }
        Err(refusal) => {
            let (number, place) = number_and_place(refusal);
            EntryAnswer {
                number,
                place,
                ..EntryAnswer::default()
            }
        }
    }
}

/// Takes a step from this head.
pub fn step(card: &[u8], at: usize) -> StepAnswer {
    match (Head { at }).step(card) {
        Ok(Some((entry, moved))) => {
            let (shape, first, second) = shape_and_places(entry);
            StepAnswer {
                shape,
                word: entry.word as usize,
                first,
                second,
                next: moved.at,
                ..StepAnswer::default()
            }
        }
        Ok(None) => StepAnswer::default(),
        Err(refusal) => {
            let (number, place) = number_and_place(refusal);
            StepAnswer {
                number,
                place,
                ..StepAnswer::default()
            }
        }
    }
}

/// Says whether the fetch of block k holds.
pub fn companion(card: &[u8], k: usize) -> Held {
    match block::companion(card, k) {
        Ok(()) => Held::default(),
        Err(refusal) => {
            let (number, place) = number_and_place(refusal);
            Held { number, place }
        }
    }
}

/// Fetches block k.
pub fn fetch(card: &[u8], k: usize) -> Part {
    match block::fetch(card, k) {
        // The part lies within the card, so that the difference says where it begins.
        Some(part) => Part {
            at: part.as_ptr() as usize - card.as_ptr() as usize,
            length: part.len(),
        },
        None => Part::default(),
    }
}

/// Writes the card of this kind and l whose entries stand in three lists.
pub fn write(
    kind: usize,
    l: usize,
    words: &[u32],
    ones: &[u16],
    twos: &[u16],
    out: &mut [u8],
) -> WriteAnswer {
    written(writer::write(kind, l, words, ones, twos, out))
}

/// Imports a list of the older readers as a card.
pub fn import(list: &[u8], out: &mut [u8]) -> WriteAnswer {
    written(probe_list::import(list, out))
}

/// Exports the card as a list of the older readers.
pub fn export(card: &[u8], out: &mut [u8]) -> WriteAnswer {
    written(probe_list::export(card, out))
}

/// Writes a name and letters as a FASTA record.
pub fn write_fasta(name: &[u8], letters: &[u8], out: &mut [u8]) -> WriteAnswer {
    written(fasta::write(name, letters, out))
}

/// Reads a FASTA record into an output for its name and one for its letters.
pub fn read_fasta(record: &[u8], name: &mut [u8], letters: &mut [u8]) -> FastaAnswer {
    match fasta::read(record, name, letters) {
        Ok(Parts { name, letters }) => FastaAnswer {
            name,
            letters,
            ..FastaAnswer::default()
        },
        Err(refusal) => {
            let (number, place) = number_and_place(refusal);
            FastaAnswer {
                number,
                place,
                ..FastaAnswer::default()
            }
        }
    }
}

/// What the writer answers, and a call that imports, exports or writes a record.
fn written(answer: Result<usize, Refusal>) -> WriteAnswer {
    match answer {
        Ok(length) => WriteAnswer {
            length,
            ..WriteAnswer::default()
        },
        Err(refusal) => {
            let (number, place) = number_and_place(refusal);
            WriteAnswer {
                number,
                place,
                ..WriteAnswer::default()
            }
        }
    }
}

/// Builds from the card with this budget.
pub fn build(card: &[u8], budget: u32, out: &mut [u8]) -> BuildAnswer {
    built(build::build(card, budget, out))
}

/// Builds from a span card whose walk was counted, with this budget.
pub fn build_counted(card: &[u8], walk: &Counted, budget: u32, out: &mut [u8]) -> BuildAnswer {
    built(build::build_by(card, out, |_, _| walk.within(budget)))
}

/// Settles the card, whose spans must be narrow.
pub fn settle(card: &[u8], out: &mut [u8]) -> BuildAnswer {
    built(settle::settle_card(card, out))
}

/// Settles the card of this kind and l whose entries stand in three lists.
pub fn settle_lists(
    kind: usize,
    l: usize,
    words: &[u32],
    ones: &[u16],
    twos: &[u16],
    out: &mut [u8],
) -> BuildAnswer {
    built(settle::settle_lists(kind, l, words, ones, twos, out))
}

/// What a build answers, and a call that settles.
fn built(answer: Result<Built, Refusal>) -> BuildAnswer {
    match answer {
        Ok(built) => BuildAnswer {
            verdict: verdict_number(built.verdict),
            length: built.length,
            placements: built.placements as usize,
            ..BuildAnswer::default()
        },
        Err(refusal) => {
            let (number, place) = number_and_place(refusal);
            BuildAnswer {
                number,
                place,
                ..BuildAnswer::default()
            }
        }
    }
}

/// Counts the builds of the card.
pub fn count(card: &[u8]) -> CountAnswer {
    counted(count::count_card(card))
}

/// Counts the builds of the card of this kind and l whose entries stand in three lists.
pub fn count_lists(
    kind: usize,
    l: usize,
    words: &[u32],
    ones: &[u16],
    twos: &[u16],
) -> CountAnswer {
    counted(count::count_lists(kind, l, words, ones, twos))
}

/// What a count answers.
fn counted(answer: Result<Count, Refusal>) -> CountAnswer {
    match answer {
        Ok(Count::None) => CountAnswer::default(),
        Ok(Count::Power(exponent)) => CountAnswer {
            any: 1,
            exponent: exponent as usize,
            ..CountAnswer::default()
        },
        Err(refusal) => {
            let (number, place) = number_and_place(refusal);
            CountAnswer {
                number,
                place,
                ..CountAnswer::default()
            }
        }
    }
}

/// The number of a verdict.
fn verdict_number(verdict: Verdict) -> usize {
    match verdict {
        Verdict::Sole => 1,
        Verdict::Several => 2,
        Verdict::None => 3,
        Verdict::Unsettled => 4,
    }
}

/// The refusal's number and place.
fn number_and_place(refusal: Refusal) -> (usize, usize) {
    (usize::from(refusal.number()), refusal.place)
}

/// The shape of the allowed places, and the places; the second is 0 where there is none.
fn shape_and_places(entry: Entry) -> (usize, usize, usize) {
    match entry.places {
        Places::One(place) => (1, usize::from(place), 0),
        Places::Two(one, two) => (2, usize::from(one), usize::from(two)),
        Places::Span(first, last) => (3, usize::from(first), usize::from(last)),
    }
}
