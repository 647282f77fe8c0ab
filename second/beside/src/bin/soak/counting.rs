//! Calls that count builds, from a card and from lists.

use beside::{firmware, independent};
use second::cards::Random;
use second::for_builds::any_sound_lists;
use second::known_counts::{any_choices, any_joined};
use second::lists::{any_lists, damage, Lists};
use second::numbers::MOST_ENTRIES;
use second::pair_lists::any_pairs;
use second::spans::shuffle;

use crate::lent::Lent;
use crate::lists::LentLists;
use crate::tally::Operation;
use crate::{card_changed, difference, hex, Soak};

impl Soak {
    /// Counts the builds of a sound pair card of its own and of its lists, and builds from it.
    pub fn count_and_build(&mut self, random: &mut Random) -> Result<(), String> {
        let lists = any_counted_pairs(random);
        let card = Lent::new(random, &lists.card().expect("sound lists"));
        self.count(&card)?;
        self.count_lists(random, &lists)?;
        self.build(random, &card)
    }

    /// Counts the builds of this card on both sides and describes a difference, if there is one.
    pub fn count(&mut self, card: &Lent<u8>) -> Result<(), String> {
        if self.is_done() {
            return Ok(());
        }
        let library = firmware::count(card.elements());
        let second = independent::count(card.wanted());
        self.tally.count_count(Operation::Count, &second);
        match difference(library, second).or_else(|| card_changed(card)) {
            None => Ok(()),
            Some(what) => Err(format!(
                "call {}: count the builds of a card of {} bytes\n{what}\ncard {}",
                self.tally.calls(),
                card.wanted().len(),
                hex(card.wanted()),
            )),
        }
    }

    /// Makes counting calls on lists of their own: sound ones, the same damaged, and any.
    pub fn count_from_lists(&mut self, random: &mut Random) -> Result<(), String> {
        let mut lists = any_sound_lists(random);
        self.count_lists(random, &lists)?;
        for _ in 0..random.between(1, 3) {
            damage(random, &mut lists);
        }
        self.count_lists(random, &lists)?;
        if random.once_in(4) {
            let lists = any_lists(random);
            self.count_lists(random, &lists)?;
        }
        Ok(())
    }

    /// Counts the builds of these lists on both sides and describes a difference, if there is one.
    pub fn count_lists(&mut self, random: &mut Random, lists: &Lists) -> Result<(), String> {
        if self.is_done() {
            return Ok(());
        }
        let lent = LentLists::new(random, lists);
        let library = lent.count();
        let second =
            independent::count_lists(lists.kind, lists.l, &lists.words, &lists.ones, &lists.twos);
        self.tally.count_count(Operation::CountLists, &second);
        match difference(library, second).or_else(|| lent.changed()) {
            None => Ok(()),
            Some(what) => Err(format!(
                "call {}: count the builds of lists\n{what}\n{}",
                self.tally.calls(),
                lent.shown(),
            )),
        }
    }
}

/// Sound pair lists, of which one in four is put together from parts, few or as many as there is room for.
fn any_counted_pairs(random: &mut Random) -> Lists {
    let most = usize::from(MOST_ENTRIES);
    let (mut lists, _) = match random.below(8) {
        0 => any_joined(random, most),
        1 => any_choices(random, most),
        _ => return any_pairs(random),
    };
    shuffle(random, &mut lists);
    lists
}
