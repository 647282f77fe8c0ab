//! Builds from pair cards whose two places are neighbours, beside those from their span cards.

use beside::independent;
use second::cards::Random;
use second::neighbours::{any_neighbours, as_spans};

use crate::building::{any_number, budgets, enough, MOST};
use crate::lent::Lent;
use crate::{hex, Soak};

impl Soak {
    /// Builds from a pair card whose two places are neighbours, and from the span card with its words and places.
    pub fn build_neighbours(&mut self, random: &mut Random) -> Result<(), String> {
        let pairs = any_neighbours(random);
        let spans = as_spans(&pairs);
        let [pair_card, span_card] =
            [&pairs, &spans].map(|lists| Lent::new(random, &lists.card().expect("sound lists")));
        let length = pairs.build_length();
        let (any, room) = (any_number(random), enough(random, length));
        let by_second = independent::build;
        let Some(of_pairs) = self.build_once(random, &pair_card, any, room, by_second)? else {
            return Ok(());
        };
        for budget in budgets(random, &spans.find(MOST)) {
            let room = enough(random, length);
            let said = self.build_once(random, &span_card, budget, room, by_second)?;
            let differs = said.and_then(|said| self.neighbours.compare(&of_pairs, &said));
            if let Some(what) = differs {
                return Err(format!(
                    "call {}: build with budget {budget} from a span card, beside its pair card\n{what}\npair card {}\nspan card {}",
                    self.tally.calls(),
                    hex(pair_card.wanted()),
                    hex(span_card.wanted()),
                ));
            }
        }
        Ok(())
    }
}
