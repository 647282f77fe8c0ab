//! The cards that calls are made on.

use second::cards::{damage, put_right, Random};
use second::for_builds::any_sound_lists;
use second::numbers::BLOCK;
use second::spans::without_end;

/// A sound card, as `second` writes it from lists of which most have a build.
pub fn any_buildable_card(random: &mut Random) -> Vec<u8> {
    let lists = match random.once_in(4000) {
        // The walk on such a card mostly takes more placements than any budget that is tried.
        true => {
            let (l, m) = random.pick(&[(2, 60), (2, 120), (3, 200), (4, 504)]);
            without_end(random, l, m)
        }
        false => any_sound_lists(random),
    };
    lists.card().expect("sound lists")
}

/// A copy of a sound card that is damaged in some way; a few copies are still sound.
pub fn damaged(random: &mut Random, sound: &[u8]) -> Vec<u8> {
    let mut card = sound.to_vec();
    if random.once_in(3) {
        change_a_byte(random, &mut card);
    } else {
        let faults = random.between(1, 3);
        damage(random, &mut card, faults);
    }
    card
}

/// Changes one byte of a whole card; every other time the check of its block is mended.
fn change_a_byte(random: &mut Random, card: &mut [u8]) {
    let at = random.below(card.len());
    card[at] ^= random.between(1, 255) as u8;
    if random.once_in(2) {
        put_right(card, at / BLOCK);
    }
}
