//! The records of settling.

use second::lists::Lists;
use second::settle::settle_card;
use second::stored::{outcome_words, Outcome, BYTE_BEFORE, LONGEST_OUTPUT};
use second::verdict::Verdict;

use super::Record;

/// How many calls there are that settle, and how often each answer came.
#[derive(Default)]
pub struct Settles {
    cards: usize,
    lists: usize,
    sole: usize,
    several: usize,
    none: usize,
    refused: usize,
}

impl Settles {
    /// All of it in one line.
    pub fn summary(&self) -> String {
        let Settles {
            cards,
            lists,
            sole,
            several,
            none,
            refused,
        } = self;
        let total = cards + lists;
        format!(
            "settles {total}: cards {cards}, lists {lists}; sole {sole}, several {several}, \
             none {none}, refused {refused}"
        )
    }

    /// Counts an answer.
    fn count(&mut self, (answer, _): &Outcome) {
        let times = match answer.map(|built| built.verdict) {
            Ok(Verdict::Sole) => &mut self.sole,
            Ok(Verdict::Several) => &mut self.several,
            Ok(Verdict::None) => &mut self.none,
            Ok(Verdict::Unsettled) => panic!("a card that is not settled"),
            Err(_) => &mut self.refused,
        };
        *times += 1;
    }
}

impl Record {
    /// Records settling a card into an output of this room, and gives the outcome.
    pub fn settle_card(&mut self, card: &[u8], room: usize) -> Outcome {
        self.put_size(b'S', card);
        self.put_room(room);
        self.put(card);
        self.settles.cards += 1;
        let mut out = vec![BYTE_BEFORE; room];
        let answer = settle_card(card, &mut out);
        self.settled((answer, out))
    }

    /// Records settling lists into an output of this room, and gives the outcome.
    pub fn settle_lists(&mut self, lists: &Lists, room: usize) -> Outcome {
        self.put_numbers(b'T', lists);
        self.put_room(room);
        self.put_elements(lists);
        self.settles.lists += 1;
        let mut out = vec![BYTE_BEFORE; room];
        let answer = lists.settle(&mut out);
        self.settled((answer, out))
    }

    /// Puts the room of an output.
    fn put_room(&mut self, room: usize) {
        assert!(room <= LONGEST_OUTPUT, "an output of {room}");
        self.put(&(room as u16).to_le_bytes());
    }

    /// Puts the line of an outcome and counts it.
    fn settled(&mut self, outcome: Outcome) -> Outcome {
        self.line(&outcome_words(&outcome));
        self.settles.count(&outcome);
        outcome
    }
}
