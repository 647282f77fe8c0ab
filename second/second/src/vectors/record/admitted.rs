//! The cards of the vectors that the reader admits, each once.

use std::collections::HashSet;

use crate::reader;

/// The cards that were admitted so far, in the order in which they came.
#[derive(Default)]
pub struct Admitted {
    cards: Vec<Vec<u8>>,
    known: HashSet<Vec<u8>>,
}

impl Admitted {
    /// Adds a card, if it is admitted and not among them.
    pub fn add(&mut self, card: &[u8]) {
        if reader::admit(card).is_ok() && self.known.insert(card.to_vec()) {
            self.cards.push(card.to_vec());
        }
    }

    /// All of them.
    pub fn cards(&self) -> &[Vec<u8>] {
        &self.cards
    }
}
