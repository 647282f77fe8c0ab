//! Rooms: 12 at 0.

use super::{letters_in_number, parted, record_of, written, Reason, BEFORE};

#[test]
fn one_byte_less_than_the_record() {
    for number in [1, 59, 60, 61, 120, 515] {
        let letters = letters_in_number(number);
        let length = record_of(b"a-build", &letters).len();
        for room in [0, 1, 9, length - number, number, length - 1] {
            let wanted = (Err(Reason::Room.at(0)), vec![BEFORE; room]);
            assert_eq!(written(b"a-build", &letters, room), wanted);
        }
    }
}

#[test]
fn either_output_of_reading() {
    for number in [1, 59, 60, 61, 120, 515] {
        let record = record_of(b"a-build", &letters_in_number(number));
        for rooms in [
            [6, number],
            [7, number - 1],
            [6, number - 1],
            [0, 600],
            [600, 0],
            [0, 0],
        ] {
            let wanted = (
                Err(Reason::Room.at(0)),
                rooms.map(|room| vec![BEFORE; room]),
            );
            assert_eq!(parted(&record, rooms), wanted);
        }
    }
}
