//! Tests of lists: each rule by itself, several at once, and the way there and back.

mod card_rules;
mod marks_and_lengths;
mod numbers;
mod orders;
mod round_trips;
mod texts;

use super::{export, import};
use crate::cards::Draft;
use crate::entry::Stored;
use crate::numbers::NO_PLACE;
use crate::profile::Kind;
use crate::refusal::{Reason, Refusal};

/// What every byte of an output holds before the call.
const BEFORE: u8 = 165;
/// Room for any card, and for any list of a card.
const AMPLE: usize = 11_000;

/// What a call says of this input with this room, and the output afterwards.
type Called = (Result<usize, Refusal>, Vec<u8>);

/// Importing a list into this room.
fn imported(list: &[u8], room: usize) -> Called {
    let mut out = vec![BEFORE; room];
    let answer = import(list, &mut out);
    (answer, out)
}

/// Exporting a card into this room.
fn exported(card: &[u8], room: usize) -> Called {
    let mut out = vec![BEFORE; room];
    let answer = export(card, &mut out);
    (answer, out)
}

/// The bytes at the start of an output of this room, and what is untouched after them.
fn followed(start: &[u8], room: usize) -> Vec<u8> {
    let mut out = vec![BEFORE; room];
    out[..start.len()].copy_from_slice(start);
    out
}

/// Holds a list to this refusal at any room, with no byte touched.
fn refused(list: impl AsRef<[u8]>, refusal: Refusal) {
    let list = list.as_ref();
    for room in [0, 1023, AMPLE] {
        let wanted = (Err(refusal), vec![BEFORE; room]);
        let shown = String::from_utf8_lossy(list);
        assert_eq!(imported(list, room), wanted, "{shown:?}");
    }
}

/// Holds a list to this card, with room and without it.
fn means(list: impl AsRef<[u8]>, card: &[u8]) {
    let list = list.as_ref();
    let n = card.len();
    for room in [n, n + 1, AMPLE] {
        let wanted = (Ok(n), followed(card, room));
        assert_eq!(imported(list, room), wanted, "{card:?}");
    }
    for room in [0, 1, n - 1] {
        let wanted = (Err(Reason::Room.at(0)), vec![BEFORE; room]);
        assert_eq!(imported(list, room), wanted);
    }
}

/// Holds a card to this list, with room and without it.
fn gives(card: &[u8], list: impl AsRef<[u8]>) {
    let list = list.as_ref();
    let n = list.len();
    for room in [n, n + 1, AMPLE] {
        let wanted = (Ok(n), followed(list, room));
        assert_eq!(exported(card, room), wanted);
    }
    for room in [0, 1, n - 1] {
        let wanted = (Err(Reason::Room.at(0)), vec![BEFORE; room]);
        assert_eq!(exported(card, room), wanted);
    }
}

/// The card of this kind and l with these words and places, as they are stored.
fn card(kind: Kind, l: u8, entries: &[(u32, u16, u16)]) -> Vec<u8> {
    let stored = |&(word, one, two)| Stored { word, one, two };
    let draft = Draft {
        form: 1,
        kind: kind.number(),
        l,
        m: entries.len() as u16,
        entries: entries.iter().map(stored).collect(),
    };
    draft.lay_out()
}

/// So many times the line `AC 1` with a tab.
fn lines(number: usize) -> Vec<u8> {
    b"AC\t1\n".repeat(number)
}

/// The first, a middle and the last of three lines, counted from 1, each put in place of one of three sound ones.
fn at_each_line(sound: &str, line: &str) -> [(usize, String); 3] {
    [
        (1, format!("{line}{sound}{sound}")),
        (2, format!("{sound}{line}{sound}")),
        (3, format!("{sound}{sound}{line}")),
    ]
}

#[test]
fn the_three_sorts_of_line() {
    // AC 1, CA 4, AG 2, GA 8, and each listed place p means p−1.
    let pairs = [(1, 0, 2), (4, 1, 3), (2, 2, NO_PLACE), (8, 3, NO_PLACE)];
    let pairs = card(Kind::Pair, 2, &pairs);
    means("AC\t1,3\nCA\t2,4\nAG\t3\nGA\t4\n", &pairs);
    gives(&pairs, "AC\t1,3\nCA\t2,4\nAG\t3\nGA\t4\n");
    let spans = [(1, 0, 2), (4, 1, 3), (2, 0, 0), (8, 3, 3)];
    let spans = card(Kind::Span, 2, &spans);
    means("AC\t1-3\nCA\t2-4\nAG\t1-1\nGA\t4-4\n", &spans);
    gives(&spans, "AC\t1-3\nCA\t2-4\nAG\t1-1\nGA\t4-4\n");
}

#[test]
fn a_list_without_a_mark_is_a_pair_card() {
    let ones = [(1, 0, NO_PLACE), (4, 1, NO_PLACE)];
    let ones = card(Kind::Pair, 2, &ones);
    means("AC\t1\nCA\t2\n", &ones);
    gives(&ones, "AC\t1\nCA\t2\n");
}

#[test]
fn a_bare_place_on_a_span_list_is_a_span_of_one() {
    let spans = card(Kind::Span, 2, &[(1, 0, 0), (4, 1, 2), (2, 2, 2)]);
    // Before the first hyphen and after it.
    means("AC\t1\nCA\t2-3\nAG\t3\n", &spans);
    means("AC\t1-1\nCA\t2-3\nAG\t3\n", &spans);
    means("AC\t1\nCA\t2-3\nAG\t3-3\n", &spans);
    gives(&spans, "AC\t1-1\nCA\t2-3\nAG\t3-3\n");
}
