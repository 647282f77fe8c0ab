//! Tests of records: each rule by itself, several at once, and the way there and back.

mod bytes;
mod letters;
mod lines;
mod names;
mod orders;
mod rooms;

use super::{read, write, Parts};
use crate::records::record_of;
use crate::refusal::{Reason, Refusal};

/// What every byte of an output holds before the call.
const BEFORE: u8 = 165;
/// Room for any record here, and for its letters.
const AMPLE: usize = 800;

/// What writing says with this room, and the output afterwards.
fn written(name: &[u8], letters: &[u8], room: usize) -> (Result<usize, Refusal>, Vec<u8>) {
    let mut out = vec![BEFORE; room];
    let answer = write(name, letters, &mut out);
    (answer, out)
}

/// What reading says with these rooms, and the two outputs afterwards.
fn parted(record: &[u8], rooms: [usize; 2]) -> (Result<Parts, Refusal>, [Vec<u8>; 2]) {
    let [mut name, mut letters] = rooms.map(|room| vec![BEFORE; room]);
    let answer = read(record, &mut name, &mut letters);
    (answer, [name, letters])
}

/// The bytes at the start of an output of this room, and what is untouched after them.
fn followed(start: &[u8], room: usize) -> Vec<u8> {
    let mut out = vec![BEFORE; room];
    out[..start.len()].copy_from_slice(start);
    out
}

/// Holds a name and letters to this record, both ways.
fn means(name: impl AsRef<[u8]>, letters: impl AsRef<[u8]>, record: impl AsRef<[u8]>) {
    let (name, letters, record) = (name.as_ref(), letters.as_ref(), record.as_ref());
    for room in [record.len(), record.len() + 1, AMPLE] {
        let wanted = (Ok(record.len()), followed(record, room));
        assert_eq!(written(name, letters, room), wanted);
    }
    let parts = Parts {
        name: name.len(),
        letters: letters.len(),
    };
    for rooms in [[parts.name, parts.letters], [41, AMPLE]] {
        let outs = [followed(name, rooms[0]), followed(letters, rooms[1])];
        assert_eq!(parted(record, rooms), (Ok(parts), outs));
    }
}

/// Holds writing to this refusal at any room, with no byte touched.
fn not_written(name: impl AsRef<[u8]>, letters: impl AsRef<[u8]>, refusal: Refusal) {
    let (name, letters) = (name.as_ref(), letters.as_ref());
    for room in [0, 1, AMPLE] {
        let wanted = (Err(refusal), vec![BEFORE; room]);
        assert_eq!(written(name, letters, room), wanted, "{name:?} {letters:?}");
    }
}

/// Holds a record to this refusal at any rooms, with no byte touched.
fn not_read(record: impl AsRef<[u8]>, refusal: Refusal) {
    let record = record.as_ref();
    let shown = String::from_utf8_lossy(record);
    for rooms in [[0, 0], [1, AMPLE], [AMPLE, 0], [AMPLE, AMPLE]] {
        let wanted = (Err(refusal), rooms.map(|room| vec![BEFORE; room]));
        assert_eq!(parted(record, rooms), wanted, "{shown:?}");
    }
}

/// So many letters, in an order that no line has as the one before it.
fn letters_in_number(number: usize) -> Vec<u8> {
    b"GATTACA".iter().copied().cycle().take(number).collect()
}

#[test]
fn the_shortest_records() {
    means("n", "A", ">n\nA\n");
    means("a-build", "ACAGA", ">a-build\nACAGA\n");
    means(">", "GT", ">>\nGT\n");
}

#[test]
fn lines_of_60_and_what_is_left() {
    let line = "ACGTACGTAC".repeat(6);
    means("n", &line[..59], format!(">n\n{}\n", &line[..59]));
    means("n", &line, format!(">n\n{line}\n"));
    means("n", format!("{line}T"), format!(">n\n{line}\nT\n"));
    let two = format!("{line}{line}");
    means("n", &two[..119], format!(">n\n{line}\n{}\n", &line[..59]));
    means("n", &two, format!(">n\n{line}\n{line}\n"));
    means("n", format!("{two}G"), format!(">n\n{line}\n{line}\nG\n"));
}

#[test]
fn every_number_of_letters_of_a_build() {
    for number in 1..=515 {
        let letters = letters_in_number(number);
        means("a-build", &letters, record_of(b"a-build", &letters));
    }
}

#[test]
fn a_record_of_very_many_letters() {
    for number in [999_960, 1_000_000, 1_000_001] {
        let letters = letters_in_number(number);
        let record = record_of(b"n", &letters);
        assert_eq!(record.len(), 3 + number + number.div_ceil(60));
        let (answer, out) = written(b"n", &letters, record.len());
        assert_eq!(answer, Ok(record.len()));
        assert!(out == record);
        let (answer, [name, again]) = parted(&record, [1, number]);
        let parts = Parts {
            name: 1,
            letters: number,
        };
        assert_eq!(answer, Ok(parts));
        assert!(name == b"n" && again == letters);
    }
}
