//! Building from pair cards: the verdicts, at any budget.

mod choices;
mod forced;
mod hopeless;
mod ringed;
mod small;

use super::Cases;
use crate::lists::Lists;
use crate::spans::shuffle;
use crate::verdict::{Found, Verdict};

impl Cases {
    /// All cases of pair cards.
    pub(super) fn pairing(&mut self) {
        self.small_pairs();
        self.longer_pair_words();
        self.forced_pairs();
        self.ringed_pairs();
        self.choices();
        self.hopeless_pairs();
    }

    /// Records a pair card at some budget, and gives the verdict.
    fn judged(&mut self, lists: &Lists) -> Verdict {
        let budget = self.any_small_or_large();
        self.found(lists, budget).verdict
    }

    /// Records a pair card that must have this verdict, and this alphabetically first build.
    fn judged_as(&mut self, lists: &Lists, verdict: Verdict, build: &[u32]) {
        let budget = self.any_small_or_large();
        self.found_as(lists, budget, &Found::new(verdict, 0, build));
    }

    /// Records lists in the order of their places and in another, as `judged_as` does.
    fn judged_in_two_orders(&mut self, mut lists: Lists, verdict: Verdict, build: &[u32]) {
        self.judged_as(&lists, verdict, build);
        shuffle(&mut self.random, &mut lists);
        self.judged_as(&lists, verdict, build);
    }
}
