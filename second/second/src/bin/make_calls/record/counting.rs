//! The records of counting.

use second::count::{count_card, Count};
use second::lists::Lists;
use second::refusal::Refusal;
use second::stored::refusal_words;

use super::Record;

/// What a count answers.
pub type Answer = Result<Count, Refusal>;

/// How many counts there are, and how often each answer came.
#[derive(Default)]
pub struct Counts {
    cards: usize,
    lists: usize,
    none: usize,
    one: usize,
    more: usize,
    refused: usize,
    /// The highest exponent.
    highest: u32,
}

impl Counts {
    /// All of it in one line.
    pub fn summary(&self) -> String {
        let Counts {
            cards,
            lists,
            none,
            one,
            more,
            refused,
            highest,
        } = self;
        let total = cards + lists;
        format!(
            "counts {total}: cards {cards}, lists {lists}; none {none}, one build {one}, \
             more {more} (up to 2^{highest}), refused {refused}"
        )
    }

    /// Counts an answer.
    fn count(&mut self, answer: Answer) {
        match answer {
            Ok(Count::None) => self.none += 1,
            Ok(Count::Power(0)) => self.one += 1,
            Ok(Count::Power(exponent)) => {
                self.more += 1;
                self.highest = self.highest.max(exponent);
            }
            Err(_) => self.refused += 1,
        }
    }
}

impl Record {
    /// Records counting the builds of a card, and gives the answer.
    pub fn count_card(&mut self, card: &[u8]) -> Answer {
        self.put_size(b'C', card);
        self.put(card);
        self.counts.cards += 1;
        self.counted(count_card(card))
    }

    /// Records counting the builds of lists, and gives the answer.
    pub fn count_lists(&mut self, lists: &Lists) -> Answer {
        self.put_numbers(b'L', lists);
        self.put_elements(lists);
        self.counts.lists += 1;
        self.counted(lists.count())
    }

    /// Puts the line of an answer and counts it.
    fn counted(&mut self, answer: Answer) -> Answer {
        let line = match answer {
            Ok(Count::None) => "none".to_string(),
            Ok(Count::Power(exponent)) => format!("power {exponent}"),
            Err(refusal) => refusal_words(refusal),
        };
        self.line(&line);
        self.counts.count(answer);
        answer
    }
}
