//! FASTA records: writing a name and letters as one, and reading them back.
//!
//! A record is `>`, a name, a newline, and then the letters in lines of 60, of
//! which the last may be shorter; a newline ends each of them.

mod read;
#[cfg(test)]
mod tests;
mod write;

use crate::numbers::LONGEST_NAME;

pub use read::{read, Parts};
pub use write::write;

/// Says whether this can be a name: 1 to 40 printable characters of ASCII, none of which is a space.
fn is_name(name: &[u8]) -> bool {
    (1..=LONGEST_NAME).contains(&name.len()) && name.iter().all(u8::is_ascii_graphic)
}
