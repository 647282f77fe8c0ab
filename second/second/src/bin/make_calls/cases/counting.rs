//! The counts: what is known beforehand, what every arrangement tells, what is refused.
//!
//! For cards and lists of any sort nothing is stated: their refusals are those
//! of the reader and the writer of `second`.

mod choices;
mod drawn;
mod faulty_cards;
mod faulty_lists;
mod ringed;
mod settled;
mod tables;

use second::arrangements::builds;
use second::build::build;
use second::count::{count_card, Count};
use second::lists::Lists;
use second::spans::shuffle;
use second::verdict::Verdict;

use crate::cases::Cases;
use crate::record::Answer;

/// The most entries of a card whose arrangements are all tried.
const SMALL: usize = 14;
/// The most letters of a build.
const LONGEST_BUILD: usize = 515;

impl Cases {
    /// All counts.
    pub(super) fn counting(&mut self) {
        self.tables();
        self.choices();
        self.settled();
        self.ringed();
        self.drawn();
        self.faulty_cards();
        self.faulty_lists();
    }

    /// Records sound pair lists, and gives the number of their builds.
    fn counted(&mut self, lists: &Lists) -> Count {
        let answer = self.record.count_lists(lists);
        hold(lists, answer)
    }

    /// Records the card of sound pair lists, and gives the number of its builds.
    fn counted_card(&mut self, lists: &Lists) -> Count {
        let card = lists.card().expect("sound lists");
        let answer = self.record.count_card(&card);
        hold(lists, answer)
    }

    /// Records sound pair lists, and their card with the entries in another order.
    fn counted_both(&mut self, lists: &Lists, wanted: Count) {
        self.counted_as(lists, wanted);
        let mut other = lists.clone();
        shuffle(&mut self.random, &mut other);
        assert_eq!(self.counted_card(&other), wanted, "a number that is known");
    }

    /// Records sound pair lists that must have this number of builds.
    fn counted_as(&mut self, lists: &Lists, wanted: Count) {
        assert_eq!(self.counted(lists), wanted, "a number that is known");
    }

    /// Records a card that must be refused with this number and place.
    fn refused_card(&mut self, card: &[u8], number: u8, place: usize) {
        let answer = self.record.count_card(card);
        hold_refused(answer, number, place);
    }

    /// Records lists that must be refused with this number and place.
    fn refused_lists(&mut self, lists: &Lists, number: u8, place: usize) {
        let answer = self.record.count_lists(lists);
        hold_refused(answer, number, place);
    }
}

/// Holds the answer for sound pair lists or their card to all that must be so, and gives the number.
fn hold(lists: &Lists, answer: Answer) -> Count {
    let count = answer.expect("sound pair lists");
    let card = lists.card().expect("sound lists");
    assert_eq!(count_card(&card), answer, "the card of {lists:?}");
    assert_eq!(lists.count(), answer, "the lists of a card, {lists:?}");
    // A build is told of the same choices as the number: this holds how a verdict is told of a number, and no more.
    let built = build(&card, 0, &mut [0; LONGEST_BUILD]).expect("a sound card with room");
    assert_eq!(count.verdict(), built.verdict, "the verdict on {lists:?}");
    if lists.words.len() <= SMALL {
        let number = match count {
            Count::None => 0,
            Count::Power(exponent) => 1 << exponent,
        };
        let builds = builds(lists).len();
        assert_eq!(builds, number, "the builds of {lists:?}");
        let verdict = Verdict::of_count(builds);
        assert_eq!(built.verdict, verdict, "the builds of {lists:?}");
    }
    count
}

/// Holds an answer to this refusal: stated by hand where a case is made for one rule, else the reader's or the writer's.
fn hold_refused(answer: Answer, number: u8, place: usize) {
    let answer = answer.map_err(|refusal| (refusal.number(), refusal.place));
    assert_eq!(answer, Err((number, place)), "a refusal that must come");
}
