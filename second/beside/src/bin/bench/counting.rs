//! Counting the builds of pair cards beside building from the same cards, both by the library.

use std::hint::black_box;

use beside::{firmware, independent};

use crate::pairing::{Sample, BUDGET, ROOM};
use crate::timing::{Beside, Operation, ROUNDS};

/// The counts on these cards, where the library agrees with `second` on them.
pub fn operations(samples: &[Sample]) -> Result<Vec<Operation<'_>>, String> {
    // A time means nothing where the two do not agree.
    for sample in samples {
        if !sample.cards.iter().all(|card| is_agreed_on(card)) {
            return Err(format!("counts differ on a card of: {}", sample.name));
        }
    }
    Ok(samples.iter().map(operation).collect())
}

/// Says whether the library counts as `second` does, and any build.
fn is_agreed_on(card: &[u8]) -> bool {
    let library = firmware::count(card);
    library == independent::count(card) && library.any == 1
}

/// Counting on the cards of a sample, one after the other, and building from them.
fn operation(sample: &Sample) -> Operation<'_> {
    let mut out = [0; ROOM];
    Operation {
        name: format!("count, pairs, {}", sample.name),
        beside: Beside::Build,
        rounds: ROUNDS,
        calls: sample.cards.len(),
        library: Box::new(|| {
            for card in &sample.cards {
                _ = black_box(firmware::count(black_box(card)));
            }
        }),
        other: Box::new(move || {
            for card in &sample.cards {
                let out = black_box(&mut out);
                _ = black_box(firmware::build(black_box(card), BUDGET, out));
            }
        }),
    }
}
