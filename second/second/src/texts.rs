//! Lists of the older readers as texts, for tests: sound and damaged ones, drawn from a seed.
//!
//! Nothing here judges a text: damage may by chance leave it sound.

mod damage;
#[cfg(test)]
mod tests;

use crate::cards::Random;
use crate::entry::Stored;
use crate::letters::letters_of;
use crate::lists::{any_sound_lists, Lists};
use crate::numbers::{NO_PLACE, SPAN};

pub use damage::damage;

/// Bytes that stand on lines, and some that look like them.
const NEAR: &[u8] = b"\t\t\n\n\r ,,--00123456789ACGTNacgt+;.\0\xEF\xFF";

/// Any text: mostly that of sound lists, and some that a card cannot have, or that are none.
pub fn any_text(random: &mut Random) -> Vec<u8> {
    match random.below(24) {
        0 => of_any_shape(random),
        1 => (0..random.below(40)).map(|_| random.pick(NEAR)).collect(),
        _ => {
            let lists = any_sound_lists(random);
            text_with_bare(random, &lists)
        }
    }
}

/// Lines of one word, which may be too short or too long for a card, as there may be too many of them.
fn of_any_shape(random: &mut Random) -> Vec<u8> {
    let letters = random.pick(&[1, 2, 2, 12, 13, 16, 17, 33, 300]);
    let lines = random.pick(&[1, 3, 64, 503, 504, 505, 506, 600]);
    let word = random.pick(&["A", "C", "G", "T"]).repeat(letters);
    let places = random.pick(&["1", "1,3", "2-3", "3", "65535"]);
    let line = format!("{word}\t{places}\n");
    line.repeat(lines).into_bytes()
}

/// The text that says what sound lists do, with a hyphen in every span.
pub fn text_of(lists: &Lists) -> Vec<u8> {
    let lines = (0..lists.words.len()).map(|i| line_of(lists, i, false));
    lines.collect::<Vec<_>>().concat()
}

/// The same, with some spans that are one wide as a bare place, where a hyphen is left.
pub fn text_with_bare(random: &mut Random, lists: &Lists) -> Vec<u8> {
    let lines = (0..lists.words.len()).map(|i| line_of(lists, i, random.once_in(2)));
    let text = lines.collect::<Vec<_>>().concat();
    let is_pairs = lists.kind != usize::from(SPAN);
    match is_pairs || text.contains(&b'-') {
        true => text,
        false => text_of(lists),
    }
}

/// The line of entry i; a span that is one wide may be bare.
fn line_of(lists: &Lists, i: usize, bare: bool) -> Vec<u8> {
    let Stored { word, one, two } = lists.get(i);
    let letters: Vec<u8> = letters_of(lists.l as u8, word).collect();
    let letters = String::from_utf8_lossy(&letters);
    let first = usize::from(one) + 1;
    let second = usize::from(two) + 1;
    let places = match lists.kind == usize::from(SPAN) {
        true if bare && one == two => format!("{first}"),
        true => format!("{first}-{second}"),
        false if two == NO_PLACE => format!("{first}"),
        false => format!("{first},{second}"),
    };
    format!("{letters}\t{places}\n").into_bytes()
}
