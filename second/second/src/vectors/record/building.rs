//! The records of building: the card of lists that are given, and a build from the current card.

use super::{Record, VERDICTS};
use crate::build::{self, Built};
use crate::lists::Lists;
use crate::stored::{outcome_words, Outcome, BYTE_BEFORE, LONGEST_OUTPUT};

/// The most placements that a record may walk.
pub const MOST_PLACEMENTS: u32 = 100_000;

impl Record {
    /// Sets the current card to the one that the writer makes of sound lists.
    ///
    /// The program stops if it is not as the lists' draft lays it out.
    pub fn give(&mut self, lists: &Lists) {
        let card = lists.card().expect("lists that are sound");
        let laid_out = lists.draft().map(|draft| draft.lay_out());
        assert!(laid_out.as_ref() == Some(&card), "a card of {lists:?}");
        self.stdin.push(b'G');
        for number in [lists.kind, lists.l] {
            self.stdin.extend_from_slice(&(number as u64).to_le_bytes());
        }
        let m = lists.words.len() as u16;
        self.stdin.extend_from_slice(&m.to_le_bytes());
        self.put_lists(lists);
        self.as_lists.add(&card);
        self.card = card;
    }

    /// Records a build from the current card into an output of this room, and gives the outcome.
    pub fn build(&mut self, budget: u32, room: usize) -> Outcome {
        assert!(room <= LONGEST_OUTPUT, "an output of {room}");
        self.stdin.push(b'D');
        self.stdin.extend_from_slice(&budget.to_le_bytes());
        self.stdin.extend_from_slice(&(room as u16).to_le_bytes());
        let mut out = vec![BYTE_BEFORE; room];
        let answer = build::build(&self.card, budget, &mut out);
        if let Ok(built) = answer {
            self.count_built(built);
        }
        let outcome = (answer, out);
        self.line(8, &outcome_words(&outcome), answer.is_err());
        outcome
    }

    /// Counts the verdict, and adds the placements to all that were walked.
    fn count_built(&mut self, built: Built) {
        let Built {
            verdict,
            placements,
            ..
        } = built;
        assert!(placements <= MOST_PLACEMENTS, "{placements} placements");
        self.placements += u64::from(placements);
        for (counted, count) in VERDICTS.iter().zip(&mut self.verdicts) {
            *count += usize::from(*counted == verdict);
        }
    }
}
