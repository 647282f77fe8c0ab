//! Every value of a byte at each place of small records.

use super::{letters_in_number, not_read, parted, record_of, Parts, Reason, AMPLE, BEFORE};

/// Each value in place of each letter: another letter is one, a newline breaks the line, and anything else is none.
#[test]
fn in_place_of_a_letter() {
    for number in [3, 61] {
        let letters = letters_in_number(number);
        for at in 0..number {
            for byte in 0..=255 {
                let mut letters = letters.clone();
                letters[at] = byte;
                let record = record_of(b"n", &letters);
                match byte {
                    b'A' | b'C' | b'G' | b'T' => {
                        letters.resize(AMPLE, BEFORE);
                        let parts = Parts {
                            name: 1,
                            letters: number,
                        };
                        let wanted = (Ok(parts), [b"n".to_vec(), letters]);
                        assert_eq!(parted(&record, [1, AMPLE]), wanted);
                    }
                    b'\n' => not_read(record, Reason::Line.at(0)),
                    _ => not_read(record, Reason::Letter.at(at)),
                }
            }
        }
    }
}

/// Each value in place of a newline after letters: a letter makes one line of two, and anything else is none.
#[test]
fn in_place_of_a_break() {
    let record = record_of(b"n", &letters_in_number(61));
    for (at, before) in [(63, 60), (record.len() - 1, 61)] {
        for byte in (0..=255).filter(|&byte| byte != b'\n') {
            let mut record = record.clone();
            record[at] = byte;
            match byte {
                b'A' | b'C' | b'G' | b'T' => not_read(record, Reason::Line.at(0)),
                _ => not_read(record, Reason::Letter.at(before)),
            }
        }
    }
}

/// Each value after the record.
#[test]
fn after_the_last_newline() {
    for byte in 0..=255 {
        let record = [b">n\nAC\n", &[byte][..]].concat();
        match byte {
            b'A' | b'C' | b'G' | b'T' | b'\n' => not_read(record, Reason::Line.at(0)),
            _ => not_read(record, Reason::Letter.at(2)),
        }
    }
}
