//! Marks that differ, and words of another length: 24 and 25.

use crate::cases::Cases;

impl Cases {
    /// All of them.
    pub(super) fn marks_and_lengths(&mut self) {
        self.marks_that_differ();
        self.words_of_other_lengths();
    }

    /// The first line whose mark differs from an earlier one, with bare lines between.
    fn marks_that_differ(&mut self) {
        for (one, other) in [(',', '-'), ('-', ',')] {
            let [one, other] = [one, other].map(|mark| format!("AC\t1{mark}2\n"));
            let bare = "AC\t1\n";
            self.refuses_list(format!("{one}{other}"), (24, 2));
            self.refuses_list(format!("{bare}{one}{other}{bare}"), (24, 3));
            self.refuses_list(format!("{one}{bare}{bare}{other}"), (24, 4));
            self.refuses_list(format!("{one}{one}{other}{one}{other}"), (24, 3));
            self.refuses_list(format!("{one}{other}{other}{one}"), (24, 2));
            for lines in [61, 251, 502] {
                let list = format!("{one}{}{other}", bare.repeat(lines));
                self.refuses_list(list, (24, lines + 2));
            }
            for list in [
                format!("{one}{bare}"),
                format!("{bare}{one}"),
                format!("{bare}{one}{bare}{one}{bare}"),
            ] {
                _ = self.imports(list);
            }
        }
    }

    /// The first word that is longer or shorter than the first one, by a letter and by many.
    fn words_of_other_lengths(&mut self) {
        let long = "G".repeat(258);
        let words = ["A", "ACG", "ACGT", "ACGTACGTACGT", "ACGTACGTACGTA", &long];
        for word in words {
            for mark in ["", ",3", "-3"] {
                let (other, line) = (format!("{word}\t2\n"), format!("AC\t2{mark}\n"));
                self.refuses_list(format!("{line}{other}{line}"), (25, 2));
                self.refuses_list(format!("{line}{line}{other}"), (25, 3));
                self.refuses_list(format!("{other}{line}{line}"), (25, 2));
            }
            let line = "TT\t2\n".repeat(503);
            self.refuses_list(format!("{line}{word}\t1\n"), (25, 504));
        }
    }
}
