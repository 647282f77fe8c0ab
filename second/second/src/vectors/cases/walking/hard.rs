//! Span cards that take many placements: wide spans, and few different words.

use crate::lists::Lists;
use crate::spans::{misread, sequence, widest, without_end, words_in};
use crate::vectors::cases::Cases;
use crate::vectors::record::MOST_PLACEMENTS;
use crate::verdict::Verdict;

/// A draw of hard cards: l, m, the different letters, and the verdict that is looked for.
type Draw = (usize, usize, usize, Verdict);

impl Cases {
    /// Cards with each verdict, drawn until the walk is long.
    pub(super) fn hard_walks(&mut self) {
        let draws: [Draw; 12] = [
            (2, 14, 3, Verdict::Sole),
            (3, 14, 2, Verdict::Sole),
            (4, 30, 2, Verdict::Sole),
            (2, 20, 2, Verdict::Several),
            (2, 30, 2, Verdict::Several),
            (2, 30, 3, Verdict::Several),
            (3, 30, 2, Verdict::Several),
            (2, 20, 2, Verdict::None),
            (2, 30, 2, Verdict::None),
            (2, 30, 4, Verdict::None),
            (3, 30, 2, Verdict::None),
            (4, 60, 2, Verdict::None),
        ];
        for draw in draws {
            for low in [100, 300, 1000, 3000] {
                self.hard_walk(draw, low);
            }
        }
    }

    /// Draws a card until its walk takes this many placements or more, and records it if one comes.
    fn hard_walk(&mut self, (l, m, letters, wanted): Draw, low: u32) {
        for _draw in 0..400 {
            let words = match wanted {
                Verdict::None => misread(&mut self.random, l, m, letters),
                _ => words_in(&sequence(&mut self.random, l, m, letters), l),
            };
            let lists = widest(&mut self.random, l, &words);
            let found = lists.find(10 * low);
            if found.verdict == wanted && found.placements >= low {
                _ = self.around_its_own_count(&lists, MOST_PLACEMENTS);
                return;
            }
        }
    }

    /// A last word that no other overlaps: the budget ends the walk before all is tried.
    pub(super) fn beyond_the_budget(&mut self) {
        for (l, m) in [(2, 60), (3, 200), (2, 504), (3, 504), (4, 504), (4, 504)] {
            let lists = self.drawn_without_end(l, m);
            for budget in [0, 1, m as u32, 4000, MOST_PLACEMENTS] {
                self.unsettled(&lists, budget);
            }
        }
    }

    /// Draws such a card until the most placements of a record do not settle it.
    fn drawn_without_end(&mut self, l: usize, m: usize) -> Lists {
        loop {
            let lists = without_end(&mut self.random, l, m);
            if lists.find(MOST_PLACEMENTS).verdict == Verdict::Unsettled {
                return lists;
            }
        }
    }
}
