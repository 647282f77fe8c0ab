//! Calls that write a card.

use beside::answers::WriteAnswer;
use beside::{firmware, independent};
use second::cards::Random;
use second::lists::{any_lists, any_room, Lists};
use second::numbers::BLOCK;
use second::profile::Kind;

use crate::lent::Lent;
use crate::lists::LentLists;
use crate::tally::Operation;
use crate::{difference, hex, output_differs, Soak};

/// The writing calls in each turn.
const CALLS_PER_TURN: usize = 3;

impl Soak {
    /// Makes writing calls on lists of their own.
    pub fn write(&mut self, random: &mut Random) -> Result<(), String> {
        for _ in 0..CALLS_PER_TURN {
            let lists = any_lists(random);
            let room = any_room(random, &lists);
            self.write_lists(random, &lists, room)?;
        }
        Ok(())
    }

    /// Makes one writing call on both sides and describes a difference, if there is one.
    fn write_lists(
        &mut self,
        random: &mut Random,
        lists: &Lists,
        room: usize,
    ) -> Result<(), String> {
        if self.is_done() {
            return Ok(());
        }
        let lent = LentLists::new(random, lists);
        let mut out = Lent::drawn(random, room);
        let library = lent.write(out.elements_mut());
        let second = independent::write(
            lists.kind,
            lists.l,
            &lists.words,
            &lists.ones,
            &lists.twos,
            out.wanted_mut(),
        );
        self.tally.count(Operation::Write, second.number);
        let differs = difference(library, second)
            .or_else(|| output_differs(&out))
            .or_else(|| lent.changed());
        match differs {
            None => Ok(()),
            Some(what) => Err(format!(
                "call {}: write into {room} bytes\n{what}\n{}",
                self.tally.calls(),
                lent.shown(),
            )),
        }
    }

    /// Where the library admits the card, has it write what `second` lists: the card's own bytes.
    pub fn round(&mut self, random: &mut Random, card: &Lent<u8>) -> Result<(), String> {
        let card = card.elements();
        if self.is_done() || firmware::admit(card).number != 0 {
            return Ok(());
        }
        self.tally.count(Operation::Write, 0);
        match written_again(random, card) {
            None => Ok(()),
            Some(what) => Err(format!(
                "call {}: write what a card of {} bytes lists\n{what}\ncard {}",
                self.tally.calls(),
                card.len(),
                hex(card),
            )),
        }
    }

    /// Calls on lists with more elements than a count of two bytes can say.
    pub fn run_beyond_the_count(&mut self, random: &mut Random) -> Result<(), String> {
        const BEYOND: usize = 65_536;
        for kind in [Kind::Pair, Kind::Span] {
            let sound = Lists::sound(random, kind, 4, 5);
            let stored = sound.get(0);
            let mut long = sound.clone();
            for _ in 0..BEYOND {
                long.push(stored);
            }
            let room = sound.size();
            self.on_long_lists(random, &long, room)?;
            for list in 0..3 {
                let mut lists = sound.clone();
                match list {
                    0 => lists.words.clone_from(&long.words),
                    1 => lists.ones.clone_from(&long.ones),
                    _ => lists.twos.clone_from(&long.twos),
                }
                self.on_long_lists(random, &lists, room)?;
            }
            long.resize(BEYOND, BEYOND, BEYOND);
            self.on_long_lists(random, &long, room)?;
        }
        Ok(())
    }

    /// Makes each call that takes lists once on these.
    fn on_long_lists(
        &mut self,
        random: &mut Random,
        lists: &Lists,
        room: usize,
    ) -> Result<(), String> {
        self.write_lists(random, lists, room)?;
        self.count_lists(random, lists)?;
        self.settle_lists(random, lists, room)
    }
}

/// Has the library write what `second` lists of the card, and describes what is not the card's own.
fn written_again(random: &mut Random, card: &[u8]) -> Option<String> {
    let lists = match Lists::of_card(card) {
        Ok(lists) => LentLists::new(random, &lists),
        Err(refusal) => return Some(format!("library admits it\nsecond  {refusal:?}")),
    };
    let room = card.len() + random.pick(&[0, 1, BLOCK]);
    let mut out = Lent::drawn(random, room);
    out.wanted_mut()[..card.len()].copy_from_slice(card);
    let own = WriteAnswer {
        length: card.len(),
        ..WriteAnswer::default()
    };
    difference(lists.write(out.elements_mut()), own)
        .or_else(|| output_differs(&out))
        .or_else(|| lists.changed())
}
