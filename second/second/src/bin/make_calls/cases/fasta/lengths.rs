//! Letters in every number that ends a line or begins one, names of every length, and rooms around what they take.

use second::records::{letters_in_number, record_of, LENGTHS};

use crate::cases::Cases;
use crate::record::LONGEST_PART;

/// Longer ones, of which the last fills the longest output.
const LONG: [usize; 5] = [1000, 4032, 5999, 6000, 6291];

impl Cases {
    /// Each number of letters, with a short name and the longest, in each room.
    pub(super) fn lengths_and_rooms(&mut self) {
        for number in LENGTHS {
            for length in [1, 40] {
                self.rooms_of_parts(length, number);
            }
        }
        for number in 1..=182 {
            self.there_and_back(number % 40 + 1, number);
        }
        for number in LONG {
            self.there_and_back(1, number);
        }
    }

    /// Records a name and letters of these numbers, written, and their record, read.
    fn there_and_back(&mut self, length: usize, number: usize) {
        let (name, letters) = self.sound_parts(length, number);
        let record = record_of(&name, &letters);
        let answer = self.write_in(&name, &letters, LONGEST_PART);
        assert_eq!(answer, Ok(record.len()));
        let answer = self.read_in(&record, [LONGEST_PART; 2]);
        assert_eq!(answer, Ok([length, number]));
    }

    /// Records the same with as much room as it takes, one more, one less, none, and far from it.
    fn rooms_of_parts(&mut self, length: usize, number: usize) {
        let (name, letters) = self.sound_parts(length, number);
        let record = record_of(&name, &letters);
        let size = record.len();
        for room in [size, size + 1, LONGEST_PART] {
            assert_eq!(self.write_in(&name, &letters, room), Ok(size));
        }
        for room in [0, 1, length + 2, number, size - 2, size - 1] {
            assert_eq!(self.write_in(&name, &letters, room), Err((12, 0)));
        }
        for rooms in [
            [length, number],
            [length + 1, number + 1],
            [length, LONGEST_PART],
        ] {
            assert_eq!(self.read_in(&record, rooms), Ok([length, number]));
        }
        for rooms in [
            [length - 1, number],
            [length, number - 1],
            [length - 1, number - 1],
            [0, LONGEST_PART],
            [LONGEST_PART, 0],
            [0, 0],
        ] {
            assert_eq!(self.read_in(&record, rooms), Err((12, 0)));
        }
    }

    /// Names of each length up to 42, and longer ones: those from 1 to 40 are names.
    pub(super) fn names(&mut self) {
        for length in (0..=42).chain([60, 61, 300, 6000]) {
            let (name, letters) = self.sound_parts(length, 61);
            let record = record_of(&name, &letters);
            if (1..=40).contains(&length) {
                let answer = self.write_in(&name, &letters, record.len());
                assert_eq!(answer, Ok(record.len()));
                let answer = self.read_in(&record, [length, 61]);
                assert_eq!(answer, Ok([length, 61]));
            } else {
                self.refuses_parts(&name, &letters, (20, 0));
                self.refuses_record(&record, (20, 0));
            }
        }
    }

    /// Characters that a name may have, so many, and so many letters.
    pub(super) fn sound_parts(&mut self, length: usize, number: usize) -> (Vec<u8>, Vec<u8>) {
        let character = |_| self.random.between(33, 126) as u8;
        let name = (0..length).map(character).collect();
        (name, letters_in_number(&mut self.random, number))
    }
}
