//! Pair lists whose number of builds is known, part by part.
//!
//! Words have two letters. Every build of a part begins and ends with A, so
//! that parts can stand side by side in any order: each keeps its choices, and
//! a part without a build leaves none to all.

use crate::cards::Random;
use crate::count::Count;
use crate::entry::Stored;
use crate::lists::Lists;
use crate::numbers::{NO_PLACE, PAIR};
use crate::pair_lists::{alone, own_and};
use crate::spans::words_in;
use crate::tables::tables;

/// The pair table of this name.
pub fn table(name: &str) -> Lists {
    let mut tables = tables().into_iter();
    let table = tables.find(|table| table.name == name);
    table.expect("a table of this name").lists
}

/// One choice with three entries, AA{0,2} AC{0,1} CA{1,2}: AACA or ACAA.
pub fn choice_of_three() -> Lists {
    own_and(2, &[0, 1, 4], |place| (place + 2) % 3)
}

/// One choice for every four of m entries, each between words of the card's two halves.
///
/// The letters are AC over and over in the first half, and AG in the second;
/// m is a multiple of 4. For 4 it is P1.
pub fn exchanged_afar(m: usize) -> Lists {
    let half = m / 2;
    let letter = |place| match place {
        _ if place % 2 == 0 => 0,
        _ if place < half => 1,
        _ => 2,
    };
    let letters: Vec<u32> = (0..=m).map(letter).collect();
    own_and(2, &words_in(&letters, 2), |place| (place + half) % m)
}

/// The parts side by side: the places of each come after those of the parts before it.
pub fn joined(parts: &[&Lists]) -> Lists {
    let mut all = Lists::empty(usize::from(PAIR), 2);
    for part in parts {
        let before = all.words.len() as u16;
        for i in 0..part.words.len() {
            let Stored { word, one, two } = part.get(i);
            let two = match two {
                NO_PLACE => NO_PLACE,
                two => two + before,
            };
            let one = one + before;
            all.push(Stored { word, one, two });
        }
    }
    all
}

/// So many copies of a part, side by side.
pub fn copies(part: &Lists, number: usize) -> Lists {
    joined(&vec![part; number])
}

/// The parts that are drawn, by what each leaves.
struct Sorts {
    /// One choice, with four entries and with three.
    choices: [Lists; 2],
    /// One build each: P5 has it because its words are equal, and the last is a single entry.
    settled: [Lists; 4],
    /// No build.
    hopeless: [Lists; 2],
}

/// All sorts of parts.
fn sorts() -> Sorts {
    Sorts {
        choices: [table("P1"), choice_of_three()],
        settled: [table("P2"), table("P3"), table("P5"), alone(2, &[0])],
        hopeless: [table("P4"), table("P7")],
    }
}

/// Parts of any sort side by side, with at most so many entries, and the number of builds.
///
/// One part in eight is the last, so that few parts are the rule, and now and
/// then one has no build at all.
pub fn any_joined(random: &mut Random, most: usize) -> (Lists, Count) {
    let Sorts {
        choices,
        settled,
        hopeless,
    } = sorts();
    let mut parts = vec![&settled[3]];
    let mut count = Count::Power(0);
    let mut left = most - 1;
    while left >= 4 && !random.once_in(8) {
        let part = match random.below(40) {
            0 => {
                count = Count::None;
                &hopeless[random.below(hopeless.len())]
            }
            1..=15 => &settled[random.below(settled.len())],
            _ => {
                if let Count::Power(exponent) = &mut count {
                    *exponent += 1;
                }
                &choices[random.below(choices.len())]
            }
        };
        left -= part.words.len();
        parts.push(part);
    }
    (joined(&parts), count)
}

/// Parts of any sort side by side, with at most so many entries, and the number of builds.
///
/// How many have a choice is drawn: any number of which there is room for, so
/// that one power is as likely as another. The others stand between them.
pub fn any_choices(random: &mut Random, most: usize) -> (Lists, Count) {
    let Sorts {
        choices: [of_four, of_three],
        settled,
        hopeless,
    } = sorts();
    let mut parts = vec![&settled[3]];
    let mut left = most - 1;
    let free = random.below(left / 3 + 1);
    for now in (1..=free).rev() {
        // Three entries are kept for each choice that is to come.
        let part = match left > 3 * now && random.once_in(2) {
            true => &of_four,
            false => &of_three,
        };
        left -= part.words.len();
        parts.push(part);
    }
    let mut count = Count::Power(free as u32);
    while left >= 4 && !random.once_in(8) {
        let part = match random.once_in(40) {
            true => {
                count = Count::None;
                &hopeless[random.below(hopeless.len())]
            }
            false => &settled[random.below(settled.len())],
        };
        left -= part.words.len();
        parts.insert(random.below(parts.len() + 1), part);
    }
    (joined(&parts), count)
}
