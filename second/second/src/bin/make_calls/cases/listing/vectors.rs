//! Every card of the stored vectors that is admitted: exported, and imported again as itself.

use std::collections::HashSet;

use second::lists::Lists;
use second::numbers::BLOCK;
use second::vectors;

use crate::cases::Cases;
use crate::record::LONGEST_TEXT;

impl Cases {
    /// All of them: short ones as bytes where the vectors have them so, and else as lists, which take less room.
    pub(super) fn cards_of_the_vectors(&mut self) {
        let vectors = vectors::all();
        let mut known = HashSet::new();
        let as_bytes = vectors.cards_as_bytes().iter();
        for card in as_bytes.filter(|card| card.len() == 2 * BLOCK) {
            known.insert(card);
            self.record.again(card);
            self.exports_in(card, LONGEST_TEXT);
        }
        let all = vectors.cards_as_bytes().iter();
        for card in all.chain(vectors.cards_as_lists()) {
            if known.insert(card) {
                let lists = Lists::of_card(card).expect("an admitted card");
                self.record.again_from(&lists);
            }
        }
    }
}
