//! The small tables, and copies of S1 side by side.

use second::lists::Lists;
use second::narrow::push_after;
use second::stored::LONGEST_OUTPUT;
use second::tables::tables;
use second::verdict::Verdict;

use crate::cases::Cases;

impl Cases {
    /// Each table by itself, then copies of S1.
    pub(super) fn settled_tables(&mut self) {
        for table in tables() {
            let card = table.lists.card().expect("a sound table");
            let need = table.lists.build_length();
            if table.lists.kind == 1 {
                self.refuses_card(&card, need, (5, 0));
                self.refuses_lists(&table.lists, need, (5, 0));
            } else {
                let found = self.settled_card_in(need, &table.lists);
                assert_eq!(found.verdict, table.verdict, "{}", table.name);
                for room in [need, LONGEST_OUTPUT] {
                    assert_eq!(self.settled_in(room, &table.lists), found);
                }
            }
            self.refuses_card(&card, need - 1, (12, 0));
            self.refuses_lists(&table.lists, need - 1, (12, 0));
        }
        for number in [2, 3, 15, 126] {
            let lists = side_by_side(&tables()[7].lists, number);
            self.settles_both(&lists, Verdict::Several);
        }
    }
}

/// So many copies of span lists, one after the other.
fn side_by_side(part: &Lists, number: usize) -> Lists {
    let mut all = Lists::empty(part.kind, part.l);
    for _ in 0..number {
        push_after(&mut all, part);
    }
    all
}
