//! The lists of the older readers: importing one as a card, and exporting a card as one.
//!
//! A list has a line for each entry: the word, a tab, then a place, two places
//! with a comma between them, or the first and the last place of a span with a
//! hyphen. It counts its places from 1, and a card counts them from 0. Only
//! [`import`] and [`export`] turn the one into the other.

mod export;
mod import;
mod line;
#[cfg(test)]
mod tests;

pub use export::export;
pub use import::import;
