//! The rules of a card after those of the text, with the card's own places: 6, 7, and 11 with the entry from 0.

use crate::cases::Cases;

/// The lines of the lists here, where a case does not say otherwise.
const LINES: usize = 20;

/// The same line so many times, with this one at entry i.
fn with_entry(sound: &str, lines: usize, i: usize, line: &str) -> String {
    format!("{}{line}{}", sound.repeat(i), sound.repeat(lines - 1 - i))
}

impl Cases {
    /// All of them.
    pub(super) fn card_rules(&mut self) {
        self.places();
        self.numbers_of_lines();
        self.orders_of_a_card();
        for (line, place) in [("AC\t7,3\n", 0), ("AC\t7,7\n", 0), ("AC\t7-3\n", 0)] {
            self.refuses_list(line, (11, place));
        }
    }

    /// Places at their edges and beyond, at the first entry, in the middle and at the last.
    fn places(&mut self) {
        let wrong = ["21", "7,3", "7,7", "20,21", "21,22", "1,21", "65535"];
        let spans = [
            "7-3",
            "20-21",
            "21-21",
            "1-9",
            "12-20",
            "1-20",
            "65534-65535",
        ];
        for i in [0, LINES / 2, LINES - 1] {
            for places in wrong.into_iter().chain(spans) {
                let line = format!("CA\t{places}\n");
                let list = with_entry("AC\t1\n", LINES, i, &line);
                self.refuses_list(list, (11, i));
            }
            for places in ["20", "1,20", "19,20", "20-20", "13-20", "1-8", "7-7"] {
                let line = format!("CA\t{places}\n");
                _ = self.imports(with_entry("AC\t1\n", LINES, i, &line));
            }
            // An entry that is wrong before it, and one after it.
            let list = with_entry("AC\t21\n", LINES, i, "AC\t7\n");
            self.refuses_list(list, (11, usize::from(i == 0)));
        }
    }

    /// As many lines as a card has entries at most, and more.
    fn numbers_of_lines(&mut self) {
        for lines in [62, 63, 64, 503, 504] {
            for (i, places) in [(0, "1-2"), (lines / 2, "1,2"), (lines - 1, "2")] {
                let list = with_entry("GT\t1\n", lines, i, &format!("AC\t{places}\n"));
                let card = self.imports(list);
                assert_eq!(card.len(), 512 * (1 + lines.div_ceil(63)));
            }
            let beyond = format!("AC\t{}\n", lines + 1);
            for i in [0, lines / 2, lines - 1] {
                let list = with_entry("GT\t1\n", lines, i, &beyond);
                self.refuses_list(list, (11, i));
            }
        }
        for lines in [505, 506, 567, 600, 1000] {
            for places in ["1", "1-2", "9,1"] {
                let list = with_entry("GT\t1\n", lines, 0, &format!("GT\t{places}\n"));
                self.refuses_list(list, (7, 0));
            }
        }
    }

    /// 6 before 7 before 11, and the lowest entry first.
    fn orders_of_a_card(&mut self) {
        for word in ["A", "ACGTACGTACGTA"] {
            self.refuses_list(format!("{word}\t9\n"), (6, 0));
            self.refuses_list(format!("{word}\t9\n").repeat(505), (6, 0));
        }
        self.refuses_list("AC\t999\n".repeat(505), (7, 0));
        self.refuses_list("AC\t9\nAC\t9\n", (11, 0));
        self.refuses_list("AC\t1\nAC\t9\nAC\t2,1\n", (11, 1));
    }
}
