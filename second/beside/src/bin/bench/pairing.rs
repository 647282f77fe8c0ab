//! Building from pair cards, from short ones to full ones.

use std::hint::black_box;

use beside::{firmware, independent};
use second::build::build;
use second::cards::Random;
use second::lists::Lists;
use second::numbers::{MOST_ENTRIES, MOST_LETTERS};
use second::pair_lists::{beside_two_rings, forced_up, scattered, with_choices};
use second::spans::{sequence, shuffle, words_in};

use crate::timing::{Beside, Operation, ROUNDS};

/// The entries of the cards, each twice as many as before.
const COUNTS: [usize; 4] = [63, 126, 252, 504];
/// The entries of all cards of a row together, which are built from one after the other.
///
/// They are as many in each row: a processor learns the turns that a few short
/// cards take, and would make these look cheaper than long ones.
const ENTRIES: usize = 8 * 504;
/// Room for any build.
pub const ROOM: usize = MOST_ENTRIES as usize + MOST_LETTERS as usize - 1;
/// The budget, which does not matter to a pair card.
pub const BUDGET: u32 = 0;

/// A sort of cards: its name, and how one of so many entries is drawn.
pub type Sort = (&'static str, fn(&mut Random, usize) -> Lists);

/// Cards of one sort and one number of entries.
pub struct Sample {
    /// The name of the sort, and the number of entries.
    pub name: String,
    /// The cards, which are taken one after the other.
    pub cards: Vec<Vec<u8>>,
}

/// The pair cards that are timed.
pub fn samples(random: &mut Random) -> Vec<Sample> {
    let sorts: [Sort; 5] = [
        ("random", at_random),
        ("many choices", |random, m| with_choices(random, 2, m, 2)),
        ("one choice for all", |random, m| {
            with_choices(random, 4, m, m / 2)
        }),
        ("one forced chain", |random, m| {
            forced_up(4, &words(random, 4, m))
        }),
        ("beside two long rings", |_, m| beside_two_rings(m)),
    ];
    drawn(random, &sorts)
}

/// Cards of each sort with each number of entries.
pub fn drawn(random: &mut Random, sorts: &[Sort]) -> Vec<Sample> {
    let mut samples = Vec::new();
    for (sort, draw) in sorts {
        for m in COUNTS {
            let cards = (0..ENTRIES / m).map(|_| {
                let mut lists = draw(random, m);
                shuffle(random, &mut lists);
                lists.card().expect("sound lists")
            });
            samples.push(Sample {
                cards: cards.collect(),
                name: format!("{sort}, m = {m}"),
            });
        }
    }
    samples
}

/// The words of a sequence that is drawn from four letters.
fn words(random: &mut Random, l: usize, m: usize) -> Vec<u32> {
    words_in(&sequence(random, l, m, 4), l)
}

/// Words that may also stand at places that are drawn.
fn at_random(random: &mut Random, m: usize) -> Lists {
    let words = words(random, 4, m);
    scattered(random, 4, &words)
}

/// The builds from these cards, where the two sides agree on them.
pub fn operations(samples: &[Sample]) -> Result<Vec<Operation<'_>>, String> {
    // A time means nothing where the two do not agree.
    for sample in samples {
        if !sample.cards.iter().all(|card| is_agreed_on(card)) {
            return Err(format!("builds differ on a card of: {}", sample.name));
        }
    }
    Ok(samples.iter().map(operation).collect())
}

/// Says whether the library answers as `second` does, and with a build.
fn is_agreed_on(card: &[u8]) -> bool {
    let mut by_library = [0; ROOM];
    let mut by_second = [0; ROOM];
    let library = firmware::build(card, BUDGET, &mut by_library);
    let second = independent::build(card, BUDGET, &mut by_second);
    library == second && by_library == by_second && library.length > 0
}

/// Building from the cards of a sample, one after the other.
fn operation(sample: &Sample) -> Operation<'_> {
    let mut for_library = [0; ROOM];
    let mut for_second = [0; ROOM];
    Operation {
        name: format!("build, pairs, {}", sample.name),
        beside: Beside::Second,
        rounds: ROUNDS,
        calls: sample.cards.len(),
        library: Box::new(move || {
            for card in &sample.cards {
                let out = black_box(&mut for_library);
                _ = black_box(firmware::build(black_box(card), BUDGET, out));
            }
        }),
        other: Box::new(move || {
            for card in &sample.cards {
                let out = black_box(&mut for_second);
                _ = black_box(build(black_box(card), BUDGET, out));
            }
        }),
    }
}
