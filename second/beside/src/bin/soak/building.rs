//! Calls that build from a card.

use beside::answers::BuildAnswer;
use beside::{firmware, independent};
use second::build::find;
use second::cards::Random;
use second::for_builds::any_room;
use second::lists::Lists;
use second::reader;
use second::verdict::{Found, Verdict};
use second::walk::counted::Counted;

use crate::lent::Lent;
use crate::tally::Operation;
use crate::{card_changed, difference, hex, output_differs, Soak};

/// The largest budget that is tried, where `second` walks, on a card which it does not settle.
pub const MOST: u32 = 100_000;
/// A walk of more placements is made a few times alone.
const COSTLY: u32 = 1000;

/// What the library said in a call, which was compared with `second`.
pub struct Said {
    pub answer: BuildAnswer,
    pub out: Lent<u8>,
}

impl Said {
    /// The number of the verdict, the length, and the letters of the sequence.
    pub fn built(&self) -> (usize, usize, &[u8]) {
        let BuildAnswer {
            verdict, length, ..
        } = self.answer;
        (verdict, length, &self.out.elements()[..length])
    }
}

impl Soak {
    /// Makes the building calls on this card.
    pub fn build(&mut self, random: &mut Random, card: &Lent<u8>) -> Result<(), String> {
        for (budget, room) in calls(random, card.elements()) {
            self.build_once(random, card, budget, room, independent::build)?;
        }
        Ok(())
    }

    /// Makes building calls on the card of span lists whose walk may be long: `second` counts it instead.
    pub fn build_long(&mut self, random: &mut Random, lists: &Lists) -> Result<(), String> {
        let walk = counted(lists);
        let card = Lent::new(random, &lists.card().expect("sound lists"));
        for budget in long_budgets(random, &walk) {
            self.build_counted(random, &card, budget, &walk)?;
        }
        Ok(())
    }

    /// Makes one building call with room on a sound span card whose walk was counted.
    pub fn build_counted(
        &mut self,
        random: &mut Random,
        card: &Lent<u8>,
        budget: u32,
        walk: &Counted,
    ) -> Result<Option<Said>, String> {
        let profile = reader::admit(card.wanted()).expect("a sound card");
        let room = enough(random, profile.build_length());
        let by_second = |card: &[u8], budget, out: &mut [u8]| {
            independent::build_counted(card, walk, budget, out)
        };
        self.build_once(random, card, budget, room, by_second)
    }

    /// Makes one call on both sides and describes a difference, if there is one; after the last call it makes none.
    pub fn build_once(
        &mut self,
        random: &mut Random,
        card: &Lent<u8>,
        budget: u32,
        room: usize,
        by_second: impl FnOnce(&[u8], u32, &mut [u8]) -> BuildAnswer,
    ) -> Result<Option<Said>, String> {
        if self.is_done() {
            return Ok(None);
        }
        let mut out = Lent::drawn(random, room);
        let library = firmware::build(card.elements(), budget, out.elements_mut());
        let second = by_second(card.wanted(), budget, out.wanted_mut());
        self.tally.count_build(Operation::Build, &second);
        let differs = difference(library, second)
            .or_else(|| output_differs(&out))
            .or_else(|| card_changed(card));
        match differs {
            None => Ok(Some(Said {
                answer: library,
                out,
            })),
            Some(what) => Err(format!(
                "call {}: build with budget {budget} into {room} bytes, from a card of {} bytes\n{what}\ncard {}",
                self.tally.calls(),
                card.wanted().len(),
                hex(card.wanted()),
            )),
        }
    }
}

/// The walk over sound span lists, counted.
pub fn counted(lists: &Lists) -> Counted {
    let (profile, entries) = lists.admitted().expect("sound lists");
    Counted::new(profile.l, &entries)
}

/// The budgets and rooms that a card is built with.
fn calls(random: &mut Random, card: &[u8]) -> Vec<(u32, usize)> {
    match reader::entries(card) {
        Err(_) => {
            let rooms = [0, any_room(random, 4), random.below(600)];
            rooms.map(|room| (any_number(random), room)).to_vec()
        }
        Ok((profile, entries)) => {
            let own = find(&profile, &entries, MOST);
            let need = profile.build_length();
            let mut calls = Vec::new();
            for budget in budgets(random, &own) {
                calls.push((budget, enough(random, need)));
                // A walk that is long is not made for the sake of a room alone.
                let room = any_room(random, need);
                if own.placements <= COSTLY || room < need {
                    calls.push((budget, room));
                }
            }
            calls
        }
    }
}

/// Budgets around a card's own placements, as far as these are known.
pub fn budgets(random: &mut Random, own: &Found) -> Vec<u32> {
    let n = own.placements;
    let any = any_number(random);
    let less = random.below(n as usize + 1) as u32;
    if own.verdict == Verdict::Unsettled {
        return vec![0, less >> random.below(16), random.pick(&[less, MOST])];
    }
    match n {
        // Pair cards among others.
        0 => vec![0, 1, any, random.pick(&[7, 1000, u32::MAX])],
        1..=COSTLY => vec![0, n - 1, n, n + 1, less, any],
        _ => vec![n - 1, n, random.pick(&[0, less, n + 1, u32::MAX])],
    }
}

/// Budgets for a card whose walk was counted: around its own placements, the largest, and any.
fn long_budgets(random: &mut Random, walk: &Counted) -> Vec<u32> {
    let mut budgets = vec![1_000_000, 4_000_000_000, u32::MAX, any_number(random)];
    if let Some(own) = walk.placements() {
        budgets.extend([own.saturating_sub(1), own, own.saturating_add(1)]);
    }
    budgets
}

/// Any number, of any size.
pub fn any_number(random: &mut Random) -> u32 {
    (random.draw() >> random.between(32, 63)) as u32
}

/// Some room that is enough for a build of this length.
pub fn enough(random: &mut Random, length: usize) -> usize {
    let more = length + random.below(84);
    random.pick(&[length, length, length + 1, more])
}
