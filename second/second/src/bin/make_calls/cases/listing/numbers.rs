//! The numbers of lines, and the lengths of words.

use super::at_each_line;
use crate::cases::Cases;

/// Numbers that are no sound text.
const WRONG: [&str; 17] = [
    "00",
    "07",
    "01",
    "010",
    "065535",
    "65536",
    "65540",
    "70000",
    "99999",
    "100000",
    "131073",
    "4294967297",
    "18446744073709551617",
    "10000000000000000000",
    "99999999999999999999",
    "00000000000000000000",
    "00000000000000000001",
];

/// A line for each way to write a number: alone, or as one of two.
fn ways(number: &str) -> [String; 5] {
    [
        format!("AC\t{number}\n"),
        format!("AC\t{number},2\n"),
        format!("AC\t1,{number}\n"),
        format!("AC\t{number}-2\n"),
        format!("AC\t1-{number}\n"),
    ]
}

impl Cases {
    /// All numbers and words at their edges.
    pub(super) fn numbers_and_words(&mut self) {
        for number in WRONG {
            for line in ways(number) {
                let lists = at_each_line(&line);
                let (at, list) = &lists[self.random.below(3)];
                self.refuses_list(list, (23, *at));
            }
        }
        for line in ways("0").into_iter().chain(ways("65535")) {
            for (at, list) in at_each_line(&line) {
                match line.contains("65535") {
                    // The place is sound text, but beyond the last one of five.
                    true => self.refuses_list(list, (11, at - 1)),
                    false => self.refuses_list(list, (26, at)),
                }
            }
        }
        for both in ["AC\t0,0\n", "AC\t0-0\n"] {
            self.refuses_list(both, (26, 1));
        }
        self.refuses_list(format!("AC\t{}\n", "9".repeat(2000)), (23, 1));
        self.lengths_of_words();
    }

    /// Words of every length, sound and not.
    fn lengths_of_words(&mut self) {
        self.refuses_list("\t1\n", (23, 1));
        for l in [1, 13, 14, 16, 17, 32, 255, 258, 1000] {
            for mark in ["", ",2", "-2"] {
                let word = "C".repeat(l);
                let list = format!("{word}\t1{mark}\n{word}\t2\n");
                self.refuses_list(list, (6, 0));
            }
        }
        for l in 2..=12 {
            for letter in ["A", "C", "G", "T"] {
                let word = letter.repeat(l);
                _ = self.imports(format!("{word}\t1\n"));
            }
            let word = &"TGCAACGTTACG"[..l];
            let card = self.imports(format!("{word}\t1-2\n{word}\t2\n"));
            assert_eq!(usize::from(card[2]), l, "l comes from the first word");
        }
    }
}
