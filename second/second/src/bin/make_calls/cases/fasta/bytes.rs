//! Every value of a byte in a name, among letters, in place of a break, and after all.

use second::records::record_of;

use crate::cases::Cases;
use crate::record::LONGEST_PART;

impl Cases {
    /// All values at these places; what comes of each is what `judge` says.
    pub(super) fn bytes_of_records(&mut self) {
        for byte in 0..=255 {
            self.byte_in_a_name(byte);
            self.byte_among_letters(byte);
            self.byte_in_a_record(byte);
        }
    }

    /// As the only byte of a name, in the middle and as the last.
    fn byte_in_a_name(&mut self, byte: u8) {
        for name in [&[byte][..], &[b'n', byte, b'm'], &[b'n', byte]] {
            _ = self.write_in(name, b"ACGT", LONGEST_PART);
            _ = self.read_in(&record_of(name, b"ACGT"), [40, LONGEST_PART]);
        }
    }

    /// As the only letter, as the last of a full line, and as the only one of the line after it.
    fn byte_among_letters(&mut self, byte: u8) {
        _ = self.write_in(b"n", &[byte], LONGEST_PART);
        _ = self.read_in(&record_of(b"n", &[byte]), [40, LONGEST_PART]);
        for at in [59, 60] {
            let mut letters = b"ACGT".repeat(16);
            letters.truncate(61);
            letters[at] = byte;
            _ = self.write_in(b"n", &letters, LONGEST_PART);
            _ = self.read_in(&record_of(b"n", &letters), [40, LONGEST_PART]);
        }
    }

    /// In place of `>`, of a break and of the last newline, and after the record.
    fn byte_in_a_record(&mut self, byte: u8) {
        let mut letters = b"TGCA".repeat(16);
        letters.truncate(61);
        let record = record_of(b"n", &letters);
        let (of_break, last) = (3 + 60, record.len() - 1);
        for at in [0, of_break, last] {
            let mut record = record.clone();
            record[at] = byte;
            _ = self.read_in(&record, [40, LONGEST_PART]);
        }
        let longer = [&record[..], &[byte]].concat();
        _ = self.read_in(&longer, [40, LONGEST_PART]);
    }
}
