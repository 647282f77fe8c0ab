//! A card as a list.

use crate::entry::Places;
use crate::letters::letters_of;
use crate::numbers::{BESIDE_THE_WORD, COMMA, HYPHEN, NEWLINE, TAB};
use crate::reader;
use crate::refusal::{Reason, Refusal};

/// Writes the list that says what a card does, and answers its length.
///
/// The reader's refusals come first, then 12 where the output has fewer bytes
/// than the list. A refusal changes no byte, and the bytes after the list are
/// never changed.
pub fn export(card: &[u8], out: &mut [u8]) -> Result<usize, Refusal> {
    let (profile, entries) = reader::entries(card)?;
    let longest_line = usize::from(profile.l) + BESIDE_THE_WORD;
    let mut list = Vec::with_capacity(entries.len() * longest_line);
    for entry in entries {
        list.extend(letters_of(profile.l, entry.word));
        list.push(TAB);
        put_places(&mut list, entry.places);
        list.push(NEWLINE);
    }
    let start = out.get_mut(..list.len()).ok_or(Reason::Room.at(0))?;
    start.copy_from_slice(&list);
    Ok(list.len())
}

/// Puts the places of an entry; a span has both ends, also where it is one wide.
fn put_places(list: &mut Vec<u8>, places: Places) {
    match places {
        Places::One(place) => put_place(list, place),
        Places::Two(one, two) => {
            put_place(list, one);
            list.push(COMMA);
            put_place(list, two);
        }
        Places::Span(first, last) => {
            put_place(list, first);
            list.push(HYPHEN);
            put_place(list, last);
        }
    }
}

/// Puts a place of a card as a list counts it: one more, as it counts from 1.
fn put_place(list: &mut Vec<u8>, place: u16) {
    // A place is below m, so that the number has at most three digits.
    let number = place + 1;
    if number >= 100 {
        list.push(digit(number / 100));
    }
    if number >= 10 {
        list.push(digit(number / 10));
    }
    list.push(digit(number));
}

/// The last digit of a number.
fn digit(number: u16) -> u8 {
    b'0' + (number % 10) as u8
}
