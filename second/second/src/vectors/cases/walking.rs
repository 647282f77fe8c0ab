//! Building from span cards: the verdicts and the placements of the walk.

mod accident;
mod full;
mod hard;
mod hopeless;
mod small;

use super::Cases;
use crate::lists::Lists;
use crate::verdict::{Found, Verdict};

impl Cases {
    /// All cases of the walk.
    pub(super) fn walking(&mut self) {
        self.small_walks();
        self.longer_words();
        self.hopeless_walks();
        self.full_walks();
        self.hard_walks();
        self.beyond_the_budget();
        self.accidents();
    }

    /// Records a walk with a budget that must be too small.
    fn unsettled(&mut self, lists: &Lists, budget: u32) {
        let unsettled = Found::new(Verdict::Unsettled, budget, &[]);
        self.found_as(lists, budget, &unsettled);
    }

    /// Records the verdict of a walk at its own placements and one more, and one less: Unsettled.
    fn at_its_own_count(&mut self, lists: &Lists, own: &Found) {
        if let Some(less) = own.placements.checked_sub(1) {
            self.unsettled(lists, less);
        }
        for budget in [own.placements, own.placements + 1] {
            self.found_as(lists, budget, own);
        }
    }

    /// Records sound lists at budgets around their own placements, or as far as these may go.
    fn around_its_own_count(&mut self, lists: &Lists, most: u32) -> Verdict {
        let found = lists.find(most);
        match found.verdict {
            Verdict::Unsettled => self.unsettled(lists, most),
            _ => self.at_its_own_count(lists, &found),
        }
        found.verdict
    }
}
