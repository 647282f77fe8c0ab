//! The small tables, with what the scope document says of each.

use crate::build::Built;
use crate::pair_lists::alone;
use crate::spans::around;
use crate::stored::{is_untouched, LONGEST_OUTPUT};
use crate::tables::{tables, Table};
use crate::vectors::cases::Cases;
use crate::verdict::Verdict;

impl Cases {
    /// Each small table at every budget around its placements and at the largest.
    pub(super) fn built_tables(&mut self) {
        for table in tables() {
            for budget in (0..table.placements + 3).chain([u32::MAX]) {
                self.built_table(&table, budget);
            }
        }
    }

    /// Every letter: the words are stated by their values, and the sequence by its letters.
    pub(super) fn every_letter(&mut self) {
        // AC 1, CG 6, GT 11, TT 15, TA 12.
        let words = [1, 6, 11, 15, 12];
        let pairs = alone(2, &words);
        let spans = around(&mut self.random, 2, &words, 1, 1);
        for (lists, placements) in [(pairs, 0), (spans, 5)] {
            let table = Table {
                name: "every letter",
                lists,
                verdict: Verdict::Sole,
                sequence: "ACGTTA",
                placements,
            };
            self.built_table(&table, 5);
        }
    }

    /// Records a small table with room around what it takes.
    fn built_table(&mut self, table: &Table, budget: u32) {
        let settled = table.placements <= budget;
        let (verdict, placements, sequence) = match settled {
            true => (table.verdict, table.placements, table.sequence.as_bytes()),
            false => (Verdict::Unsettled, budget, &[][..]),
        };
        let wanted = Built {
            verdict,
            length: sequence.len(),
            placements,
        };
        self.give(&table.lists);
        // The words have two letters.
        let need = table.lists.words.len() + 1;
        for room in [need, need + 1, LONGEST_OUTPUT] {
            let (answer, out) = self.record.build(budget, room);
            assert_eq!(answer, Ok(wanted), "{}", table.name);
            let (letters, later) = out.split_at(sequence.len());
            assert_eq!(letters, sequence, "{}", table.name);
            assert!(is_untouched(later), "a byte after the build is touched");
        }
        for room in [0, need - 1] {
            self.unbuilt_in(room, 12, 0);
        }
    }
}
