//! Lists whose text is not as it must be: 23 with the line.

use super::at_each_line;
use crate::cases::Cases;

/// Lines that are wrong by themselves.
const WRONG: [&str; 44] = [
    "\n",
    "\t\n",
    "\t\t\n",
    "AC\n",
    "AC\t\n",
    "AC1\n",
    "AC 1\n",
    "\t1\n",
    "\t1,2\n",
    "1\n",
    "1\tAC\n",
    " AC\t1\n",
    "AC \t1\n",
    "AC\t 1\n",
    "AC\t1 \n",
    "AC\t1\t\n",
    "AC\t\t1\n",
    "AC\t1\t2\n",
    "AC\t1\r\n",
    "AC\t1,3\r\n",
    "AC\t1-3\r\n",
    "ac\t1\n",
    "AN\t1\n",
    "aC\t1\n",
    "A C\t1\n",
    "AC\t+1\n",
    "AC\t-1\n",
    "AC\t,1\n",
    "AC\t1,\n",
    "AC\t1-\n",
    "AC\t,\n",
    "AC\t-\n",
    "AC\t1,,3\n",
    "AC\t1--3\n",
    "AC\t1,-3\n",
    "AC\t1-,3\n",
    "AC\t1,2,3\n",
    "AC\t1-2-3\n",
    "AC\t1-2,3\n",
    "AC\t1, 3\n",
    "AC\t1;3\n",
    "AC\t1.0\n",
    "AC\t1x\n",
    "AC\t0x1\n",
];

impl Cases {
    /// All lists whose text is wrong, beside a few that are sound.
    pub(super) fn texts(&mut self) {
        for line in WRONG {
            for (number, list) in at_each_line(line) {
                self.refuses_list(list, (23, number));
            }
        }
        self.nothing_and_empty_lines();
        self.no_last_newline();
        for line in ["AC\t1\r\nCA\t2\r\n", "\u{FEFF}AC\t1\n", "AC\t1\rCA\t2\r"] {
            self.refuses_list(line, (23, 1));
        }
        self.refuses_list("AC\t1\nCA\t2\r\n", (23, 2));
        self.refuses_list(b"\xFF\xFEAC\t1\n", (23, 1));
        for sound in [
            "AC\t1\n",
            "AC\t1-1\n",
            "AC\t1,2\nCA\t2\n",
            "AC\t1-2\nCA\t2\n",
            "AC\t1\nCA\t1-2\n",
        ] {
            _ = self.imports(sound);
        }
    }

    /// No byte at all, and empty lines at each place.
    fn nothing_and_empty_lines(&mut self) {
        for list in ["", "\n", "\n\n", "\nAC\t1\n", "\nAC\t1,0\n"] {
            self.refuses_list(list, (23, 1));
        }
        self.refuses_list("AC\t1\n\n", (23, 2));
        self.refuses_list("AC\t1\n\nAC\t1\n", (23, 2));
        self.refuses_list("AC\t1\nAC\t1\n\n", (23, 3));
        self.refuses_list(format!("{}\n", "AC\t1\n".repeat(504)), (23, 505));
    }

    /// A list that is cut after any of its bytes.
    fn no_last_newline(&mut self) {
        for list in [
            "AC\t1,2\nCAC\t2-10",
            "AC\t1-2\nCA\t0,65536",
            "AC\t2\nCA\t1\n",
        ] {
            for cut in 1..list.len() {
                let cut = &list[..cut];
                match cut.ends_with('\n') {
                    // The first line alone, which has a place 1 higher than the last.
                    true => self.refuses_list(cut, (11, 0)),
                    false => self.refuses_list(cut, (23, 1 + cut.matches('\n').count())),
                }
            }
        }
    }
}
