//! What is pasted and sent as FASTA and is no such record.

use crate::cases::Cases;

/// Texts with the refusal of each.
const TEXTS: [(&str, (u8, usize)); 44] = [
    ("", (20, 0)),
    (">", (20, 0)),
    (">n", (20, 0)),
    (">name", (20, 0)),
    ("\n", (20, 0)),
    (">\n", (20, 0)),
    (">\nACGT\n", (20, 0)),
    ("n\nACGT\n", (20, 0)),
    ("ACGT\n", (20, 0)),
    ("ACGT", (20, 0)),
    (";n\nACGT\n", (20, 0)),
    (" >n\nACGT\n", (20, 0)),
    ("\n>n\nACGT\n", (20, 0)),
    ("> n\nACGT\n", (20, 0)),
    (">n \nACGT\n", (20, 0)),
    (">a name\nACGT\n", (20, 0)),
    (">a\tname\nACGT\n", (20, 0)),
    (">n\r\nACGT\r\n", (20, 0)),
    (">n\r\nACGT\n", (20, 0)),
    (">n\rACGT\r", (20, 0)),
    ("\u{FEFF}>n\nACGT\n", (20, 0)),
    (">\u{E9}\nACGT\n", (20, 0)),
    (">n\n", (21, 0)),
    (">n\n\n", (21, 0)),
    (">n\n\n\n", (21, 0)),
    (">n\n>m\nACGT\n", (21, 0)),
    (">n\nacgt\n", (21, 0)),
    (">n\nACGt\n", (21, 3)),
    (">n\nACNT\n", (21, 2)),
    (">n\nACUG\n", (21, 2)),
    (">n\nACGT*\n", (21, 4)),
    (">n\nAC-GT\n", (21, 2)),
    (">n\nAC GT\n", (21, 2)),
    (">n\n ACGT\n", (21, 0)),
    (">n\nACGT \n", (21, 4)),
    (">n\nACGT\r\n", (21, 4)),
    (">n\nACGT\n>m\nACGT\n", (21, 4)),
    (">n\nACGT\n>", (21, 4)),
    (">n\nACGT", (22, 0)),
    (">n\nACGT\n\n", (22, 0)),
    (">n\nACGT\nACGT\n", (22, 0)),
    (">n\n\nACGT\n", (22, 0)),
    (">n\nACGT\n\nACGT\n", (22, 0)),
    (">n\nA\n\n\n\n", (22, 0)),
];

impl Cases {
    /// All of them, and a record that is cut after each of its bytes.
    pub(super) fn odd_texts(&mut self) {
        for (text, wanted) in TEXTS {
            self.refuses_record(text, wanted);
        }
        let line = "GATTACAGGT".repeat(6);
        for record in [format!(">name\n{line}\nACA\n"), format!(">name\n{line}\n")] {
            for cut in 0..record.len() {
                let wanted = match cut {
                    0..=5 => (20, 0),
                    6 => (21, 0),
                    // The first line alone is a record too.
                    67 => continue,
                    _ => (22, 0),
                };
                self.refuses_record(&record[..cut], wanted);
            }
        }
        // As many breaks as a line has letters, after one letter and after none.
        let breaks = "\n".repeat(60);
        self.refuses_record(format!(">n\nA{breaks}"), (22, 0));
        self.refuses_record(format!(">n\n\n{breaks}"), (21, 0));
        self.refuses_record(format!(">n\n{breaks}A\n"), (22, 0));
        self.refuses_parts(b"n", b"", (21, 0));
        self.refuses_parts(b"n", b"ACGT\n", (21, 4));
        self.refuses_parts(b"n", b"ac", (21, 0));
        self.refuses_parts(b"", b"ACGT", (20, 0));
        self.refuses_parts(b">a name", b"ACGT", (20, 0));
    }
}
