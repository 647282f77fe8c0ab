//! What is settled, and what every call that settles is held to.
//!
//! For cards of any sort nothing is stated: small ones are held to all their
//! arrangements, and all to their walk, wherever some budget settles it.

mod crowded;
mod drawn;
mod late;
mod rooms;
mod tables;
mod widths;
mod wrong_cards;
mod wrong_lists;

use second::arrangements::builds;
use second::lists::Lists;
use second::matching::is_build;
use second::settle::settle_card;
use second::spans::shuffle;
use second::stored::{is_untouched, read, Outcome, BYTE_BEFORE};
use second::verdict::{Found, Verdict};
use second::walk::counted::Counted;

use crate::cases::Cases;

/// The most entries of a card whose arrangements are all tried.
const SMALL: usize = 8;

impl Cases {
    /// All cases of settling.
    pub(super) fn settling(&mut self) {
        self.settled_tables();
        self.drawn_narrow();
        self.equal_words();
        self.crowded_places();
        self.late_walks();
        self.rooms();
        self.widths();
        self.wrong_cards();
        self.wrong_lists();
    }

    /// Records settling sound narrow lists with this room, and gives what is found.
    fn settled_in(&mut self, room: usize, lists: &Lists) -> Found {
        let outcome = self.record.settle_lists(lists, room);
        hold(lists, &outcome)
    }

    /// The same of their card.
    fn settled_card_in(&mut self, room: usize, lists: &Lists) -> Found {
        let card = lists.card().expect("sound lists");
        let outcome = self.record.settle_card(&card, room);
        hold(lists, &outcome)
    }

    /// Records settling sound narrow lists with some room that is enough.
    fn settles(&mut self, lists: &Lists) -> Found {
        let room = self.enough(lists);
        self.settled_in(room, lists)
    }

    /// The same of their card.
    fn settles_card(&mut self, lists: &Lists) -> Found {
        let room = self.enough(lists);
        self.settled_card_in(room, lists)
    }

    /// Records sound narrow lists, and their card with the entries in another order, which must both have this verdict.
    fn settles_both(&mut self, lists: &Lists, wanted: Verdict) {
        let found = self.settles(lists);
        assert_eq!(found.verdict, wanted, "a verdict that is known, {lists:?}");
        let mut other = lists.clone();
        shuffle(&mut self.random, &mut other);
        let again = self.settles_card(&other);
        assert_eq!(again, found, "the order of the entries, {lists:?}");
    }

    /// Records a card that must be refused with this number and place.
    fn refuses_card(&mut self, card: &[u8], room: usize, wanted: (u8, usize)) {
        let outcome = self.record.settle_card(card, room);
        hold_refused(&outcome, wanted);
    }

    /// Records lists that must be refused with this number and place.
    fn refuses_lists(&mut self, lists: &Lists, room: usize, wanted: (u8, usize)) {
        let outcome = self.record.settle_lists(lists, room);
        hold_refused(&outcome, wanted);
    }

    /// Some room that is enough for a build of these lists.
    fn enough(&mut self, lists: &Lists) -> usize {
        let length = lists.build_length();
        let more = length + self.random.between(2, 9);
        self.random.pick(&[length, length, length + 1, more])
    }
}

/// Holds an outcome for sound narrow lists or their card to all that must be so, and gives what is found.
fn hold(lists: &Lists, outcome: &Outcome) -> Found {
    let (answer, out) = outcome;
    let built = answer.expect("sound narrow lists with room");
    hold_alike(lists, outcome);
    let found = read(lists, built, out);
    assert_eq!(found.placements, 0, "placements of {lists:?}");
    assert_ne!(found.verdict, Verdict::Unsettled, "{lists:?}");
    if !found.words.is_empty() {
        assert!(is_build(lists, &found.words), "no build of {lists:?}");
    }
    hold_to_walk(lists, &found);
    if lists.words.len() <= SMALL {
        let all = builds(lists);
        let first = all.first().cloned().unwrap_or_default();
        let wanted = Found::new(Verdict::of_count(all.len()), 0, &first);
        assert_eq!(found, wanted, "the builds of {lists:?}");
    }
    found
}

/// Holds a card and its lists to the same outcome.
fn hold_alike(lists: &Lists, (answer, out): &Outcome) {
    let card = lists.card().expect("sound lists");
    let mut of_card = vec![BYTE_BEFORE; out.len()];
    let mut of_lists = of_card.clone();
    assert_eq!(settle_card(&card, &mut of_card), *answer, "{lists:?}");
    assert_eq!(lists.settle(&mut of_lists), *answer, "{lists:?}");
    assert_eq!([&of_card, &of_lists], [out, out], "{lists:?}");
}

/// Holds what is found to the walk, where some budget settles it.
fn hold_to_walk(lists: &Lists, found: &Found) {
    let walked = walked(lists, u32::MAX);
    if walked.verdict != Verdict::Unsettled {
        let wanted = Found::new(walked.verdict, 0, &walked.words);
        assert_eq!(*found, wanted, "the walk of {lists:?}");
    }
}

/// What the walk over sound lists finds with this budget.
fn walked(lists: &Lists, budget: u32) -> Found {
    let (profile, entries) = lists.admitted().expect("sound lists");
    Counted::new(profile.l, &entries).within(budget)
}

/// Holds an outcome to this refusal, with nothing touched.
fn hold_refused((answer, out): &Outcome, wanted: (u8, usize)) {
    let answer = answer.map_err(|refusal| (refusal.number(), refusal.place));
    assert_eq!(answer, Err(wanted), "a refusal that must come");
    assert!(is_untouched(out), "a refusal touched the output");
}
