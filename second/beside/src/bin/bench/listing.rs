//! Importing lists of the older readers, and exporting cards as such lists.

use std::hint::black_box;

use beside::{firmware, independent};
use second::cards::Random;
use second::lists::Lists;
use second::probe_list::{export, import};
use second::profile::Kind;
use second::texts::text_of;

use crate::timing::{Beside, Operation, ROUNDS};

/// A card and its list, and their name.
pub struct Sample {
    name: String,
    card: Vec<u8>,
    list: Vec<u8>,
}

impl Sample {
    /// Says whether the two sides make the card of the list, and the list of the card.
    fn is_agreed_on(&self) -> bool {
        let Sample { card, list, .. } = self;
        let [mut by_library, mut by_second] = [0, 0].map(|byte| vec![byte; card.len()]);
        let is_imported = firmware::import(list, &mut by_library).length == card.len()
            && independent::import(list, &mut by_second).length == card.len()
            && [&by_library, &by_second] == [card, card];
        let [mut by_library, mut by_second] = [0, 0].map(|byte| vec![byte; list.len()]);
        let is_exported = firmware::export(card, &mut by_library).length == list.len()
            && independent::export(card, &mut by_second).length == list.len()
            && [&by_library, &by_second] == [list, list];
        is_imported && is_exported
    }
}

/// The cards and lists that are timed: each kind, full, and with one full block.
pub fn samples(random: &mut Random) -> Vec<Sample> {
    let mut samples = Vec::new();
    for m in [504, 63] {
        for (kind, word) in [(Kind::Pair, "pair"), (Kind::Span, "span")] {
            let lists = Lists::sound(random, kind, 12, m);
            samples.push(Sample {
                name: format!("{word} list, m = {m}"),
                card: lists.card().expect("sound lists"),
                list: text_of(&lists),
            });
        }
    }
    samples
}

/// Importing these lists and exporting their cards, where the two sides agree on them.
pub fn operations(samples: &[Sample]) -> Result<Vec<Operation<'_>>, String> {
    // A time means nothing where the two do not agree.
    if let Some(sample) = samples.iter().find(|sample| !sample.is_agreed_on()) {
        return Err(format!("the two differ on the {}", sample.name));
    }
    let imports = samples.iter().map(imported);
    Ok(imports.chain(samples.iter().map(exported)).collect())
}

/// One call on each side, with an output of this room.
fn operation<'a>(
    name: String,
    room: usize,
    mut library: impl FnMut(&mut [u8]) + 'a,
    mut other: impl FnMut(&mut [u8]) + 'a,
) -> Operation<'a> {
    let mut for_library = vec![0; room];
    let mut for_second = for_library.clone();
    Operation {
        name,
        beside: Beside::Second,
        rounds: ROUNDS,
        calls: 1,
        library: Box::new(move || library(black_box(&mut for_library))),
        other: Box::new(move || other(black_box(&mut for_second))),
    }
}

/// Importing the list into an output of the card's size.
fn imported(sample: &Sample) -> Operation<'_> {
    let Sample { name, card, list } = sample;
    operation(
        format!("import {name}"),
        card.len(),
        |out| _ = black_box(firmware::import(black_box(list), out)),
        |out| _ = black_box(import(black_box(list), out)),
    )
}

/// Exporting the card into an output of the list's size.
fn exported(sample: &Sample) -> Operation<'_> {
    let Sample { name, card, list } = sample;
    operation(
        format!("export {name}"),
        list.len(),
        |out| _ = black_box(firmware::export(black_box(card), out)),
        |out| _ = black_box(export(black_box(card), out)),
    )
}
