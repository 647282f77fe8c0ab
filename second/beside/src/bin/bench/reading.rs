//! Reading and writing cards, beside `second` and beside plain C.

use std::hint::black_box;

use beside::answers::Held;
use beside::plain::card as plain;
use beside::writers::{written_by, Writer};
use beside::{firmware, independent};
use second::block;
use second::cards::{Draft, Random};
use second::lists::Lists;
use second::numbers::BLOCK;
use second::profile::Kind;
use second::reader::{self, Head};

use crate::timing::{Beside, Operation, ROUNDS};

/// A card that is timed, its name and what it lists.
pub struct Sample {
    name: String,
    card: Vec<u8>,
    lists: Lists,
}

impl Sample {
    /// Says whether all sides find its blocks sound, admit the card and write it again as it is.
    fn is_agreed_on(&self) -> bool {
        let Sample { card, lists, .. } = self;
        let companions = [
            firmware::companion,
            independent::companion,
            plain::companion,
        ];
        let holds =
            |k: usize| companions.map(|companion| companion(card, k)) == [Held::default(); 3];
        let admitted = [firmware::admit, plain::admit].map(|admit| admit(card));
        let writers: [Writer; 3] = [firmware::write, independent::write, plain::write];
        let is_written_by = |write: Writer| {
            let mut out = vec![0; card.len()];
            let answer = written_by(write, lists, &mut out);
            (answer.number, answer.length) == (0, card.len()) && out == *card
        };
        (0..card.len() / BLOCK).all(holds)
            && reader::admit(card).is_ok()
            && admitted == [independent::admit(card); 2]
            && writers.into_iter().all(is_written_by)
    }
}

/// The cards that are timed: each kind, full, with one full block, and with one entry.
pub fn samples(random: &mut Random) -> Vec<Sample> {
    let mut samples = Vec::new();
    for m in [504, 63, 1] {
        for (kind, word) in [(Kind::Pair, "pair"), (Kind::Span, "span")] {
            let draft = Draft::sound(random, kind, 12, m);
            samples.push(Sample {
                name: format!("{word} card, m = {m}"),
                card: draft.lay_out(),
                lists: Lists::of_draft(&draft),
            });
        }
    }
    samples
}

/// The calls that read and write these cards, where all sides agree on them.
pub fn operations(samples: &[Sample]) -> Result<Vec<Operation<'_>>, String> {
    // A time means nothing where they do not agree.
    if let Some(sample) = samples.iter().find(|sample| !sample.is_agreed_on()) {
        return Err(format!("the sides differ on the {}", sample.name));
    }
    // Those with a full block or more, and the full ones alone.
    let (long, full) = (&samples[..4], &samples[..2]);
    let mut operations = companions(&full[0], 0);
    operations.extend(samples.iter().map(admit_beside_second));
    operations.extend(long.iter().map(admit_beside_c));
    operations.extend(full.iter().map(|sample| entry(sample, 503)));
    operations.extend(full.iter().map(|sample| step(sample, 503)));
    operations.extend(samples.iter().map(write_beside_second));
    operations.extend(long.iter().map(write_beside_c));
    Ok(operations)
}

/// One call on each side.
fn operation<'a>(
    name: String,
    beside: Beside,
    library: impl FnMut() + 'a,
    other: impl FnMut() + 'a,
) -> Operation<'a> {
    Operation {
        name,
        beside,
        rounds: ROUNDS,
        calls: 1,
        library: Box::new(library),
        other: Box::new(other),
    }
}

/// The companion of block k of this card, beside `second` and beside C.
fn companions(sample: &Sample, k: usize) -> Vec<Operation<'_>> {
    let card = &sample.card;
    let name = format!("companion of block {k}, {}", sample.name);
    let library = move || _ = black_box(firmware::companion(black_box(card), black_box(k)));
    let second = move || _ = black_box(block::companion(black_box(card), black_box(k)));
    let c = move || _ = black_box(plain::companion(black_box(card), black_box(k)));
    vec![
        operation(name.clone(), Beside::Second, library, second),
        operation(name, Beside::C, library, c),
    ]
}

/// Admitting this card, beside `second`.
fn admit_beside_second(sample: &Sample) -> Operation<'_> {
    admit(sample, Beside::Second, |card| {
        _ = black_box(reader::admit(card));
    })
}

/// Admitting this card, beside C.
fn admit_beside_c(sample: &Sample) -> Operation<'_> {
    admit(sample, Beside::C, |card| _ = black_box(plain::admit(card)))
}

/// Admitting this card by the library, beside another call on it.
fn admit(sample: &Sample, beside: Beside, other: fn(&[u8])) -> Operation<'_> {
    let card = &sample.card;
    operation(
        format!("admit {}", sample.name),
        beside,
        || _ = black_box(firmware::admit(black_box(card))),
        move || other(black_box(card)),
    )
}

/// Fetching entry i of this card.
fn entry(sample: &Sample, i: usize) -> Operation<'_> {
    let card = &sample.card;
    operation(
        format!("entry {i} of {}", sample.name),
        Beside::Second,
        move || _ = black_box(firmware::entry(black_box(card), black_box(i))),
        move || _ = black_box(reader::entry(black_box(card), black_box(i))),
    )
}

/// A step from this head on this card.
fn step(sample: &Sample, at: usize) -> Operation<'_> {
    let card = &sample.card;
    operation(
        format!("step {at} of {}", sample.name),
        Beside::Second,
        move || _ = black_box(firmware::step(black_box(card), black_box(at))),
        move || _ = black_box(black_box(Head { at }).step(black_box(card))),
    )
}

/// Writing the card's lists, beside `second`.
fn write_beside_second(sample: &Sample) -> Operation<'_> {
    write(sample, Beside::Second, |lists, out| {
        _ = black_box(lists.write(out));
    })
}

/// Writing the card's lists, beside C.
fn write_beside_c(sample: &Sample) -> Operation<'_> {
    write(sample, Beside::C, |lists, out| {
        _ = black_box(written_by(plain::write, lists, out));
    })
}

/// Writing the card's lists by the library, beside another call on them, each into an output of the card's size.
fn write(sample: &Sample, beside: Beside, other: fn(&Lists, &mut [u8])) -> Operation<'_> {
    let lists = &sample.lists;
    let mut for_library = vec![0; lists.size()];
    let mut for_other = for_library.clone();
    operation(
        format!("write {}", sample.name),
        beside,
        move || {
            let out = black_box(&mut for_library);
            _ = black_box(written_by(firmware::write, black_box(lists), out));
        },
        move || other(black_box(lists), black_box(&mut for_other)),
    )
}
