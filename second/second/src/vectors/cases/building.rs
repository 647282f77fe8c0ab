//! Building from cards, and what every build is held to.

mod any;
mod edges;
mod refused;
mod rooms;
mod tables;

use super::Cases;
use crate::arrangements::builds;
use crate::lists::Lists;
use crate::matching::is_build;
use crate::numbers::PAIR;
use crate::stored::{is_untouched, read};
use crate::verdict::{Found, Verdict};

/// The most entries of a pair card whose arrangements are all tried.
const SMALL_PAIRS: usize = 12;
/// The most entries of a span card whose arrangements are all tried.
const SMALL_SPANS: usize = 7;

impl Cases {
    /// All cases of building.
    pub(super) fn building(&mut self) {
        self.built_tables();
        self.every_letter();
        self.walking();
        self.pairing();
        self.rooms_of_builds();
        self.edges_of_builds();
        self.refused_builds();
        self.any_builds();
    }

    /// Sets the current card to that of these lists, where it is another.
    fn give(&mut self, lists: &Lists) {
        if lists.card().as_deref() != Ok(self.record.card()) {
            self.record.give(lists);
        }
    }

    /// Records a build from the card of sound lists into this room, and reads what is found.
    fn found_in(&mut self, room: usize, lists: &Lists, budget: u32) -> Found {
        self.give(lists);
        let (answer, out) = self.record.build(budget, room);
        let built = answer.expect("a sound card with room for a build");
        let found = read(lists, built, &out);
        hold(lists, budget, &found);
        found
    }

    /// The same, with some room that is enough.
    pub(super) fn found(&mut self, lists: &Lists, budget: u32) -> Found {
        let length = lists.build_length();
        let more = length + self.random.between(2, 9);
        let room = self.random.pick(&[length, length, length + 1, more]);
        self.found_in(room, lists, budget)
    }

    /// Records a build that must find this.
    pub(super) fn found_as(&mut self, lists: &Lists, budget: u32, wanted: &Found) {
        let found = self.found(lists, budget);
        assert_eq!(found, *wanted, "a verdict that is known");
    }

    /// Records a build from the current card that must be refused with this number and place.
    fn unbuilt_in(&mut self, room: usize, number: u8, place: usize) {
        let budget = self.any_small_or_large();
        let (answer, out) = self.record.build(budget, room);
        let answer = answer.map_err(|refusal| (refusal.number(), refusal.place));
        assert_eq!(answer, Err((number, place)), "a refusal stated by hand");
        assert!(is_untouched(&out), "a refusal touched the output");
    }

    /// A budget for builds that it does not matter to.
    pub(super) fn any_small_or_large(&mut self) -> u32 {
        self.random.pick(&[0, 1, 1000, u32::MAX])
    }
}

/// Holds what was found of sound lists to what must be so of any.
fn hold(lists: &Lists, budget: u32, found: &Found) {
    let Found {
        verdict,
        placements,
        words,
    } = found;
    let is_pair = lists.kind == usize::from(PAIR);
    match verdict {
        Verdict::Unsettled => assert_eq!(*placements, budget, "Unsettled below the budget"),
        _ => assert!(*placements <= budget, "settled beyond the budget"),
    }
    if is_pair {
        assert_eq!(*placements, 0, "placements on a pair card");
        assert_ne!(
            *verdict,
            Verdict::Unsettled,
            "a pair card that is not settled"
        );
    }
    if !words.is_empty() {
        assert!(is_build(lists, words), "no build of {lists:?}");
    }
    let small = if is_pair { SMALL_PAIRS } else { SMALL_SPANS };
    if lists.words.len() <= small && *verdict != Verdict::Unsettled {
        let all = builds(lists);
        assert_eq!(*verdict, Verdict::of_count(all.len()), "{lists:?}");
        let first = all.first().cloned().unwrap_or_default();
        assert_eq!(*words, first, "the first build of {lists:?}");
    }
}
