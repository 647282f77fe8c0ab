//! Breaks elsewhere than the rule puts them: 22.

use second::records::{record_of, LENGTHS};

use crate::cases::Cases;

/// The refusal of a line.
const LINE: (u8, usize) = (22, 0);

impl Cases {
    /// For each number of letters each break, one early, one late, doubled and missing, and lines of another length.
    pub(super) fn breaks(&mut self) {
        for number in LENGTHS {
            let (name, letters) = self.sound_parts(4, number);
            let record = record_of(&name, &letters);
            let head = name.len() + 2;
            let breaks: Vec<usize> = (head..record.len())
                .filter(|&at| record[at] == b'\n')
                .collect();
            for at in breaks {
                self.break_moved(&record, at);
            }
            self.empty_first_line(&record, head);
            for length in [1, 2, 59, 61, 70, 80, 120] {
                self.other_lines(&record[..head], &letters, length);
            }
        }
    }

    /// The break at this place in each wrong way.
    fn break_moved(&mut self, record: &[u8], at: usize) {
        let mut early = record.to_vec();
        early.swap(at - 1, at);
        self.refuses_record(early, LINE);
        if at + 1 < record.len() {
            let mut late = record.to_vec();
            late.swap(at, at + 1);
            self.refuses_record(late, LINE);
        }
        let mut doubled = record.to_vec();
        doubled.insert(at, b'\n');
        self.refuses_record(doubled, LINE);
        let mut missing = record.to_vec();
        missing.remove(at);
        self.refuses_record(missing, LINE);
    }

    /// An empty line between the name and the letters.
    fn empty_first_line(&mut self, record: &[u8], head: usize) {
        let mut record = record.to_vec();
        record.insert(head, b'\n');
        self.refuses_record(record, LINE);
    }

    /// All lines of another length; few letters fit on one all the same.
    fn other_lines(&mut self, head: &[u8], letters: &[u8], length: usize) {
        let lines: Vec<&[u8]> = letters.chunks(length).collect();
        let record = [head, &lines.join(&b'\n'), b"\n"].concat();
        if letters.len() > length.min(60) {
            self.refuses_record(record, LINE);
        }
    }
}
