//! Cards of any sort, at any budget and with any room.

use crate::cards::{any_card, damage};
use crate::for_builds::{any_budget, any_room, any_sound_lists};
use crate::reader;
use crate::stored::LONGEST_OUTPUT;
use crate::vectors::cases::Cases;
use crate::verdict::Verdict;

/// The most placements that a card of any sort is walked for.
const MOST: u32 = 1000;

impl Cases {
    /// Sound lists, damaged cards of such lists, and cards of any sort.
    pub(super) fn any_builds(&mut self) {
        for _ in 0..600 {
            self.any_lists_built();
        }
        for _ in 0..150 {
            let lists = any_sound_lists(&mut self.random);
            let mut card = lists.card().expect("sound lists");
            let faults = self.random.between(1, 3);
            damage(&mut self.random, &mut card, faults);
            self.any_card_built(&card);
        }
        for _ in 0..150 {
            let card = any_card(&mut self.random);
            self.any_card_built(&card);
        }
    }

    /// Records sound lists at a budget around their own placements.
    fn any_lists_built(&mut self) {
        let lists = any_sound_lists(&mut self.random);
        let need = lists.build_length();
        let room = any_room(&mut self.random, need).min(LONGEST_OUTPUT);
        let own = lists.find(MOST);
        let budget = match own.verdict {
            Verdict::Unsettled => self.random.below(MOST as usize) as u32,
            _ => any_budget(&mut self.random, own.placements),
        };
        if room < need {
            self.give(&lists);
            self.unbuilt_in(room, 12, 0);
        } else {
            let found = self.found_in(room, &lists, budget);
            let settles = own.verdict != Verdict::Unsettled && own.placements <= budget;
            assert!(found == own || !settles, "a budget changed the verdict");
            assert!(found.verdict == Verdict::Unsettled || settles);
        }
    }

    /// Records a card whatever it gets: the reader's refusal, 12, or a build.
    fn any_card_built(&mut self, card: &[u8]) {
        let admitted = reader::admit(card);
        let need = admitted.map_or(0, |profile| profile.build_length());
        let room = any_room(&mut self.random, need).min(LONGEST_OUTPUT);
        self.record.set_card(card);
        match admitted {
            Err(refusal) => {
                for room in [0, room] {
                    self.unbuilt_in(room, refusal.number(), refusal.place);
                }
            }
            Ok(_) if room < need => self.unbuilt_in(room, 12, 0),
            Ok(_) => {
                let (answer, _) = self.record.build(MOST, room);
                assert!(answer.is_ok(), "{answer:?} with room for a build");
            }
        }
    }
}
