//! The small tables, and copies of them side by side.

use second::count::Count::{self, Power};
use second::known_counts::{any_joined, copies, joined, table};
use second::tables::tables;

use crate::cases::Cases;

impl Cases {
    /// Each table by itself, then several together.
    pub(super) fn tables(&mut self) {
        let one = Power(0);
        let none = Count::None;
        let wanted = [Power(1), one, one, none, one, one, none];
        for (table, count) in tables().iter().zip(wanted) {
            self.counted_both(&table.lists, count);
        }
        for table in &tables()[wanted.len()..] {
            let card = table.lists.card().expect("a sound table");
            self.refused_card(&card, 5, 0);
            self.refused_lists(&table.lists, 5, 0);
        }
        self.copies_of_p1();
        self.tables_together();
    }

    /// Two and three copies, then many.
    fn copies_of_p1(&mut self) {
        for number in [2, 3, 4, 5, 8, 31, 32, 33, 126] {
            let lists = copies(&table("P1"), number as usize);
            self.counted_both(&lists, Power(number));
        }
    }

    /// Tables with a choice between tables without one, and beside one without a build.
    fn tables_together(&mut self) {
        let [free, first, second] = ["P1", "P2", "P3"].map(table);
        let (equal, hopeless) = (table("P5"), table("P4"));
        for (parts, count) in [
            (vec![&free, &equal], Power(1)),
            (vec![&equal, &free], Power(1)),
            (vec![&equal, &equal, &equal], Power(0)),
            (vec![&free, &equal, &free], Power(2)),
            (vec![&first, &free, &second], Power(1)),
            (vec![&first, &second], Power(0)),
            (vec![&free, &hopeless], Count::None),
            (vec![&hopeless, &free, &free], Count::None),
        ] {
            self.counted_both(&joined(&parts), count);
        }
        for most in [10, 14, 20, 40, 80, 120, 200] {
            for _ in 0..3 {
                let (lists, count) = any_joined(&mut self.random, most);
                self.counted_as(&lists, count);
            }
        }
    }
}
