//! Texts that are drawn: sound ones, and the same with a few faults.

use second::cards::any_count;
use second::lists::Lists;
use second::texts::{damage, text_with_bare};

use crate::cases::{Cases, KINDS};
use crate::record::{LONGEST_ROOM, LONGEST_TEXT};

/// The sound texts, each of which is also damaged a few times.
const TEXTS: usize = 130;
/// The damaged copies of each.
const COPIES: usize = 5;

impl Cases {
    /// All of them; what comes of a damaged one is what `judge` says.
    pub(super) fn drawn_texts(&mut self) {
        for _ in 0..TEXTS {
            let kind = self.random.pick(&KINDS);
            let l = self.random.between(2, 12) as u8;
            // Long texts take much room, so that few are drawn.
            let m = any_count(&mut self.random);
            let m = if self.random.once_in(8) {
                m
            } else {
                m % 12 + 1
            };
            let lists = Lists::sound(&mut self.random, kind, l, m);
            let text = text_with_bare(&mut self.random, &lists);
            let card = self.imports(&text);
            assert_eq!(Ok(card), lists.card(), "the card of {lists:?}");
            for _ in 0..COPIES {
                let mut text = text.clone();
                for _ in 0..self.random.between(1, 3) {
                    damage(&mut self.random, &mut text);
                }
                text.truncate(LONGEST_TEXT);
                let room = self.random.pick(&[0, 1023, LONGEST_ROOM, LONGEST_ROOM]);
                _ = self.import_in(&text, room);
            }
        }
    }
}
