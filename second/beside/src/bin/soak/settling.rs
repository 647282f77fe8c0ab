//! Calls that settle narrow cards, from a card and from lists.

use beside::{firmware, independent};
use second::cards::Random;
use second::for_builds::any_room;
use second::lists::{any_lists, damage, Lists};
use second::narrow::{any_narrow, any_widest, late, without_end};
use second::reader;
use second::report::BUDGET;
use second::spans::shuffle;

use crate::building::{counted, enough, Said};
use crate::inputs::damaged;
use crate::lent::Lent;
use crate::lists::LentLists;
use crate::tally::Operation;
use crate::{card_changed, difference, hex, output_differs, Soak};

/// The room for lists whose l may be anything: it is taken for a sound one here.
const LETTERS: usize = 12;

impl Soak {
    /// Makes the settling calls on this card: with room, where it is admitted, and with any room.
    pub fn settle(&mut self, random: &mut Random, card: &Lent<u8>) -> Result<(), String> {
        let need = reader::admit(card.elements()).map(|profile| profile.build_length());
        if let Ok(need) = need {
            let room = enough(random, need);
            self.settle_once(random, card, room)?;
        }
        let room = any_room(random, need.unwrap_or(4));
        self.settle_once(random, card, room)?;
        Ok(())
    }

    /// Settles a narrow card of its own, its lists, and damaged copies of both, and builds from it.
    pub fn settle_narrow(&mut self, random: &mut Random) -> Result<(), String> {
        let lists = any_settled(random);
        let card = lists.card().expect("sound lists");
        let lent = Lent::new(random, &card);
        self.settle_and_build(random, &lists, &lent)?;
        self.settle(random, &lent)?;
        let copy = damaged(random, &card);
        let copy = Lent::new(random, &copy);
        self.settle(random, &copy)?;
        self.settle_from_lists(random, lists)
    }

    /// Settles a narrow card, and builds from it with the budget of the program: where that settles, both must be alike.
    fn settle_and_build(
        &mut self,
        random: &mut Random,
        lists: &Lists,
        card: &Lent<u8>,
    ) -> Result<(), String> {
        let room = enough(random, lists.build_length());
        let Some(settled) = self.settle_once(random, card, room)? else {
            return Ok(());
        };
        let built = self.build_counted(random, card, BUDGET, &counted(lists))?;
        let differs = built.and_then(|built| self.narrow.compare(&settled, &built));
        match differs {
            None => Ok(()),
            Some(what) => Err(format!(
                "call {}: build with budget {BUDGET} from a narrow card, beside settling it\n{what}\ncard {}",
                self.tally.calls(),
                hex(card.wanted()),
            )),
        }
    }

    /// Settles a card on both sides and describes a difference, if there is one; after the last call it makes none.
    fn settle_once(
        &mut self,
        random: &mut Random,
        card: &Lent<u8>,
        room: usize,
    ) -> Result<Option<Said>, String> {
        if self.is_done() {
            return Ok(None);
        }
        let mut out = Lent::drawn(random, room);
        let answer = firmware::settle(card.elements(), out.elements_mut());
        let second = independent::settle(card.wanted(), out.wanted_mut());
        self.tally.count_build(Operation::Settle, &second);
        // A card that the reader admits is refused with 5 for its pairs alone.
        if second.number == 5 && reader::admit(card.wanted()).is_ok() {
            self.tally.count_pairs(Operation::Settle);
        }
        let differs = difference(answer, second)
            .or_else(|| output_differs(&out))
            .or_else(|| card_changed(card));
        match differs {
            None => Ok(Some(Said { answer, out })),
            Some(what) => Err(format!(
                "call {}: settle a card of {} bytes into {room} bytes\n{what}\ncard {}",
                self.tally.calls(),
                card.wanted().len(),
                hex(card.wanted()),
            )),
        }
    }

    /// Makes settling calls on these lists, which are sound, on the same damaged, and now and then on any.
    fn settle_from_lists(&mut self, random: &mut Random, mut lists: Lists) -> Result<(), String> {
        let room = enough(random, lists.build_length());
        self.settle_lists(random, &lists, room)?;
        let room = any_room(random, lists.build_length());
        self.settle_lists(random, &lists, room)?;
        for _ in 0..random.between(1, 3) {
            damage(random, &mut lists);
        }
        self.settle_in_any_room(random, &lists)?;
        if random.once_in(4) {
            let lists = any_lists(random);
            self.settle_in_any_room(random, &lists)?;
        }
        Ok(())
    }

    /// Settles lists, sound or not, in a room that may be enough.
    fn settle_in_any_room(&mut self, random: &mut Random, lists: &Lists) -> Result<(), String> {
        let length = lists.words.len() + lists.l.min(LETTERS);
        let room = match random.below(2) {
            0 => any_room(random, length),
            _ => enough(random, length),
        };
        self.settle_lists(random, lists, room)
    }

    /// Settles these lists on both sides and describes a difference, if there is one.
    pub fn settle_lists(
        &mut self,
        random: &mut Random,
        lists: &Lists,
        room: usize,
    ) -> Result<(), String> {
        if self.is_done() {
            return Ok(());
        }
        let lent = LentLists::new(random, lists);
        let mut out = Lent::drawn(random, room);
        let library = lent.settle(out.elements_mut());
        let second = independent::settle_lists(
            lists.kind,
            lists.l,
            &lists.words,
            &lists.ones,
            &lists.twos,
            out.wanted_mut(),
        );
        self.tally.count_build(Operation::SettleLists, &second);
        if second.number == 5 && lists.kind == 1 {
            self.tally.count_pairs(Operation::SettleLists);
        }
        let differs = difference(library, second)
            .or_else(|| output_differs(&out))
            .or_else(|| lent.changed());
        match differs {
            None => Ok(()),
            Some(what) => Err(format!(
                "call {}: settle lists into {room} bytes\n{what}\n{}",
                self.tally.calls(),
                lent.shown(),
            )),
        }
    }
}

/// Sound narrow lists: one in 16 has a walk that is mostly long, with one build or with none.
fn any_settled(random: &mut Random) -> Lists {
    match random.below(32) {
        0 => {
            let (_, mut lists) = late();
            shuffle(random, &mut lists);
            lists
        }
        1 => {
            let m = random.between(60, 504);
            without_end(random, 2, m)
        }
        2..=8 => any_widest(random),
        _ => any_narrow(random),
    }
}
