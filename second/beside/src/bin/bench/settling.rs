//! Settling narrow cards beside the layers of `second`, and beside building from the same cards, both by the library.

use std::hint::black_box;

use beside::{firmware, independent};
use second::cards::Random;
use second::lists::Lists;
use second::narrow::{crowded, without_end, WIDE};
use second::settle::settle_card;
use second::spans::with_build;
use second::walk::counted::Counted;

use crate::pairing::{drawn, Sample, Sort, ROOM};
use crate::timing::{Beside, Operation, ROUNDS};

/// The largest budget, with which a build walks as far as any does.
const BUDGET: u32 = u32::MAX;
/// The number of the verdict Unsettled.
const UNSETTLED: usize = 4;

/// The narrow cards that are timed.
pub fn samples(random: &mut Random) -> Vec<Sample> {
    let sorts: [Sort; 3] = [
        ("random", |random, m| with_build(random, 4, m, 4, WIDE)),
        ("spoiled", |random, m| without_end(random, 2, m)),
        ("crowded", |random, m| crowded(random, 2, m, 2)),
    ];
    drawn(random, &sorts)
}

/// Settling these cards beside `second`, then beside building from them, where all agree.
pub fn operations(samples: &[Sample]) -> Result<Vec<Operation<'_>>, String> {
    // A time means nothing where they do not agree.
    for sample in samples {
        if !sample.cards.iter().all(|card| is_agreed_on(card)) {
            return Err(format!(
                "what is settled differs on a card of: {}",
                sample.name
            ));
        }
    }
    let beside_second = samples.iter().map(beside_second);
    Ok(beside_second
        .chain(samples.iter().map(beside_build))
        .collect())
}

/// Says whether the library settles as `second` does, and builds as `second` counts the walk.
///
/// Unless a build is unsettled, it must have the verdict and the letters of
/// what is settled.
fn is_agreed_on(card: &[u8]) -> bool {
    let [mut settled, mut by_layers, mut built, mut by_walk] = [[0; ROOM]; 4];
    let library = firmware::settle(card, &mut settled);
    let second = independent::settle(card, &mut by_layers);
    let build = firmware::build(card, BUDGET, &mut built);
    let walk = independent::build_counted(card, &counted(card), BUDGET, &mut by_walk);
    let is_alike = build.verdict == library.verdict && built == settled;
    library == second
        && settled == by_layers
        && library.number == 0
        && build == walk
        && built == by_walk
        && (is_alike || build.verdict == UNSETTLED)
}

/// The walk over the entries of a sound card, counted.
fn counted(card: &[u8]) -> Counted {
    let lists = Lists::of_card(card).expect("a sound card");
    let (profile, entries) = lists.admitted().expect("sound lists");
    Counted::new(profile.l, &entries)
}

/// Settling the cards of a sample, one after the other, on both sides.
fn beside_second(sample: &Sample) -> Operation<'_> {
    let mut out = [0; ROOM];
    operation(sample, Beside::Second, move |card| {
        _ = black_box(settle_card(card, black_box(&mut out)));
    })
}

/// Settling the cards of a sample, and building from them with the largest budget.
fn beside_build(sample: &Sample) -> Operation<'_> {
    let mut out = [0; ROOM];
    operation(sample, Beside::Build, move |card| {
        _ = black_box(firmware::build(card, BUDGET, black_box(&mut out)));
    })
}

/// Settling the cards of a sample by the library, beside another call on each.
fn operation<'a>(
    sample: &'a Sample,
    beside: Beside,
    mut other: impl FnMut(&[u8]) + 'a,
) -> Operation<'a> {
    let mut for_library = [0; ROOM];
    Operation {
        name: format!("settle, {}", sample.name),
        beside,
        rounds: ROUNDS,
        calls: sample.cards.len(),
        library: Box::new(move || {
            for card in &sample.cards {
                let out = black_box(&mut for_library);
                _ = black_box(firmware::settle(black_box(card), out));
            }
        }),
        other: Box::new(move || {
            for card in &sample.cards {
                other(black_box(card));
            }
        }),
    }
}
