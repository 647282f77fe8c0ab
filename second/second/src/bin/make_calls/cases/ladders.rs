//! Ladders of faults: of any of them on one card or in one call's lists, the lowest decides.

use second::cards::{entry_start, put_all_right};
use second::lists::Lists;
use second::numbers::{BLOCK, CHECK_A, NO_PLACE};

/// The rungs of the ladder for cards.
pub const CARD_FAULTS: usize = 18;
/// The rungs of the ladder for lists.
pub const LISTS_FAULTS: usize = 9;

/// A refusal's number and place.
type Refused = (u8, usize);
/// One fault of a card: the refusal that it gives by itself, and how it is made.
type CardFault = (Refused, fn(&mut Vec<u8>));
/// The same of lists.
type ListsFault = (Refused, fn(&mut Lists));

/// Makes the chosen faults on a sound card with l = 3 and m = 65, and gives what must come of the lowest, which is first.
pub fn spoil_card(card: &mut Vec<u8>, chosen: &[usize]) -> Refused {
    let ladder = card_ladder();
    for &rung in chosen {
        ladder[rung].1(card);
    }
    put_all_right(card);
    // Putting the checks right undid the faults in checks; they are made again.
    for &rung in chosen {
        if ladder[rung].0 .0 == 2 {
            ladder[rung].1(card);
        }
    }
    ladder[chosen[0]].0
}

/// Makes two faults, or one where they are the same, in sound lists with l = 3 and m = 5, and gives what must come of the lower, which is first.
pub fn spoil_lists(lists: &mut Lists, [low, high]: [usize; 2]) -> Refused {
    let ladder = lists_ladder();
    ladder[low].1(lists);
    if low < high {
        ladder[high].1(lists);
    }
    ladder[low].0
}

/// Faults in the order on reading, for a card with l = 3 and m = 65.
///
/// No fault hides one that comes before it, so that of any choice of them the
/// lowest rung decides.
fn card_ladder() -> [CardFault; CARD_FAULTS] {
    fn spoil_check(card: &mut [u8], k: usize) {
        card[k * BLOCK + CHECK_A] = card[k * BLOCK + CHECK_A].wrapping_add(1);
    }
    fn spoil_index(card: &mut [u8], k: usize) {
        card[k * BLOCK + 509] = 7;
    }
    fn spoil_word(card: &mut [u8], i: usize) {
        card[entry_start(i) + 1] = 1;
    }
    fn spoil_places(card: &mut [u8], i: usize) {
        // 65,535 as place one is wrong on either kind.
        card[entry_start(i) + 4..][..2].copy_from_slice(&[255, 255]);
    }
    [
        ((2, 0), |card| spoil_check(card, 0)),
        ((3, 0), |card| spoil_index(card, 0)),
        ((4, 0), |card| card[0] = 2),
        ((5, 0), |card| card[1] = 3),
        ((6, 0), |card| card[2] = 13),
        ((7, 0), |card| card[5] = 2),
        ((8, 0), |card| card[300] = 9),
        ((9, 0), |card| card.push(0)),
        ((2, 1), |card| spoil_check(card, 1)),
        ((3, 1), |card| spoil_index(card, 1)),
        ((10, 0), |card| spoil_word(card, 0)),
        ((11, 0), |card| spoil_places(card, 0)),
        ((10, 62), |card| spoil_word(card, 62)),
        ((11, 62), |card| spoil_places(card, 62)),
        ((8, 1), |card| card[BLOCK + 504] = 1),
        ((3, 2), |card| spoil_index(card, 2)),
        ((11, 63), |card| spoil_places(card, 63)),
        ((8, 2), |card| card[2 * BLOCK + 16] = 1),
    ]
}

/// Faults in the order of the tests, for lists with l = 3 and m = 5.
///
/// No fault hides one that comes before it, so that of any two the lower rung
/// decides.
fn lists_ladder() -> [ListsFault; LISTS_FAULTS] {
    fn spoil_word(lists: &mut Lists, i: usize) {
        lists.words[i] |= 1 << 6;
    }
    fn spoil_places(lists: &mut Lists, i: usize) {
        // 65,535 as place one is wrong on either kind.
        lists.ones[i] = NO_PLACE;
    }
    [
        ((5, 0), |lists| lists.kind = 3),
        ((6, 0), |lists| lists.l = 1),
        ((13, 0), |lists| _ = lists.twos.pop()),
        ((10, 0), |lists| spoil_word(lists, 0)),
        ((11, 0), |lists| spoil_places(lists, 0)),
        ((10, 2), |lists| spoil_word(lists, 2)),
        ((11, 2), |lists| spoil_places(lists, 2)),
        ((10, 4), |lists| spoil_word(lists, 4)),
        ((11, 4), |lists| spoil_places(lists, 4)),
    ]
}
