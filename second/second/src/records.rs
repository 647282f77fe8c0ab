//! FASTA records, for tests: sound and damaged ones, drawn from a seed.
//!
//! Nothing here judges a record: damage may by chance leave it sound.

mod damage;
#[cfg(test)]
mod tests;

use crate::cards::Random;

pub use damage::damage;

/// Numbers of letters around the ends of lines, and those of the longest build.
pub const LENGTHS: [usize; 9] = [1, 2, 59, 60, 61, 119, 120, 121, 515];
/// Bytes that stand in records, and some that look like them.
const NEAR: &[u8] = b">>\n\n\n\r ACGTNacgtU-*0~!\t\0\x7F\x80\xFF";

/// The record of this name and these letters, letter by letter, whether or not they can have one.
pub fn record_of(name: &[u8], letters: &[u8]) -> Vec<u8> {
    let mut record = [b">", name, b"\n"].concat();
    for (number, &letter) in (1..).zip(letters) {
        record.push(letter);
        if number % 60 == 0 || number == letters.len() {
            record.push(b'\n');
        }
    }
    record
}

/// Any name: mostly one that a record can have.
pub fn any_name(random: &mut Random) -> Vec<u8> {
    let length = match random.below(8) {
        0 => random.pick(&[0, 41, 41, 42, 60, 300]),
        1..=3 => random.pick(&[1, 2, 39, 40]),
        _ => random.between(1, 40),
    };
    let mut name: Vec<u8> = (0..length)
        .map(|_| random.between(0x21, 0x7E) as u8)
        .collect();
    if length > 0 && random.once_in(12) {
        let at = random.below(length);
        name[at] = random.pick(&[b' ', b'\n', b'\r', b'\t', 0, 0x7F, 0x80, 0xFF]);
    }
    name
}

/// So many letters, all drawn.
pub fn letters_in_number(random: &mut Random, number: usize) -> Vec<u8> {
    (0..number).map(|_| random.pick(b"ACGT")).collect()
}

/// Any letters: mostly few, of a number around the ends of lines, or as many as a build can have.
pub fn any_letters(random: &mut Random) -> Vec<u8> {
    let number = match random.below(16) {
        0 => random.between(1, 5000),
        1..=4 => random.between(1, 515),
        5..=7 => 60 * random.between(1, 9) + random.below(3) - 1,
        _ => random.pick(&LENGTHS),
    };
    letters_in_number(random, number)
}

/// The same, in which one byte may be another one, or of which there may be none.
pub fn any_bytes_for_letters(random: &mut Random) -> Vec<u8> {
    let mut letters = any_letters(random);
    match random.below(8) {
        0 => letters.clear(),
        1..=3 => {
            let at = random.below(letters.len());
            letters[at] = any_byte(random);
        }
        _ => {}
    }
    letters
}

/// Any record: mostly a sound one, and some bytes that are none.
pub fn any_record(random: &mut Random) -> Vec<u8> {
    match random.below(24) {
        0 => (0..random.below(90)).map(|_| random.pick(NEAR)).collect(),
        1 => {
            let length = random.below(90);
            random.bytes(length)
        }
        _ => {
            let name = any_name(random);
            record_of(&name, &any_letters(random))
        }
    }
}

/// Any byte, mostly one that stands in records or looks like one.
fn any_byte(random: &mut Random) -> u8 {
    match random.below(3) {
        0 => random.byte(),
        _ => random.pick(NEAR),
    }
}
