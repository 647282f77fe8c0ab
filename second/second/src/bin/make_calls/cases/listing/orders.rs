//! Several faults at once: the lowest line first, and 23, 24, 25, 26 within a line.

use crate::cases::Cases;

/// Lines after `AC 1,2`, each with the number that comes of it; of the faults on one line the first in order comes.
const LINES: [(&str, u8); 16] = [
    ("AC\t3-0x\n", 23),
    ("ACG\t3-0\r\n", 23),
    ("ACG\t0-00\n", 23),
    ("ACg\t0,2\n", 23),
    ("AC\t1-2,0\n", 23),
    ("AC\t1-2\n", 24),
    ("ACG\t1-2\n", 24),
    ("AC\t0-2\n", 24),
    ("A\t1-0\n", 24),
    ("ACG\t0-0\n", 24),
    ("ACG\t1,2\n", 25),
    ("ACG\t0,2\n", 25),
    ("A\t0\n", 25),
    ("AC\t0\n", 26),
    ("AC\t0,2\n", 26),
    ("AC\t2,0\n", 26),
];

impl Cases {
    /// All of them.
    pub(super) fn several_at_once(&mut self) {
        let first = "AC\t1,2\n";
        for (line, number) in LINES {
            self.refuses_list(format!("{first}{line}"), (number, 2));
            // Without its newline it is the text, whatever else it is.
            let cut = line.trim_end_matches('\n');
            self.refuses_list(format!("{first}{cut}"), (23, 2));
            for (later, _) in LINES {
                self.refuses_list(format!("{first}{line}{later}"), (number, 2));
            }
            let (later, _) = LINES[self.random.below(LINES.len())];
            let later = later.trim_end_matches('\n');
            self.refuses_list(format!("{first}{line}{later}"), (number, 2));
            let lines = "AC\t9\n".repeat(self.random.between(20, 90));
            let at = 2 + lines.matches('\n').count();
            self.refuses_list(format!("{first}{lines}{line}{first}"), (number, at));
        }
        self.texts_before_cards();
    }

    /// Faults of the card on earlier lines, or of the whole, come after the last line's text.
    fn texts_before_cards(&mut self) {
        for (list, number) in [
            ("A\t9\nA\t0\n", 26),
            ("A\t9,1\nA\t1-2\n", 24),
            ("AC\t2,1\nACG\t1\n", 25),
            ("AC\t65535\nAC\t65536\n", 23),
        ] {
            self.refuses_list(list, (number, 2));
        }
        let many = "A\t9\n".repeat(520);
        for (line, number) in [("A\t1", 23), ("\n", 23), ("AC\t0\n", 25), ("A\t0\n", 26)] {
            self.refuses_list(format!("{many}{line}"), (number, 521));
        }
    }
}
