//! What calls that build are given, for tests: sound lists, rooms and budgets, drawn from a seed.

use crate::cards::Random;
use crate::lists::Lists;
use crate::pair_lists::any_pairs;
use crate::spans::any_spans;

/// Sound lists of either kind: most have a build, and most are of few entries.
pub fn any_sound_lists(random: &mut Random) -> Lists {
    match random.below(2) {
        0 => any_pairs(random),
        _ => any_spans(random),
    }
}

/// Any room for a build of this length: mostly as many bytes as it takes, or one beside it.
pub fn any_room(random: &mut Random, length: usize) -> usize {
    match random.below(8) {
        0..=2 => length,
        3 => length.saturating_sub(1),
        4 => length + 1,
        5 => random.below(length + 1),
        6 => length + random.below(84),
        _ => random.pick(&[0, 1, 504, 515, 600]),
    }
}

/// Any budget for a card that takes these placements up to its verdict: mostly one beside them.
pub fn any_budget(random: &mut Random, own: u32) -> u32 {
    let less = random.below(own as usize + 1) as u32;
    let beyond = random.pick(&[1 << 16, 1 << 31, u32::MAX]);
    let beside = [own, own, own.saturating_sub(1), own + 1];
    match random.below(8) {
        0..=4 => random.pick(&beside),
        5 => less,
        6 => 0,
        _ => own.max(beyond),
    }
}
