//! Damage to a text.

use super::NEAR;
use crate::cards::Random;

/// Numbers to try on a line.
const ODD_NUMBERS: [&str; 20] = [
    "0",
    "1",
    "00",
    "01",
    "07",
    "503",
    "504",
    "505",
    "0504",
    "32768",
    "65534",
    "65535",
    "65536",
    "65537",
    "99999",
    "655350",
    "4294967297",
    "18446744073709551617",
    "99999999999999999999",
    "",
];

/// Damages a text in one way.
pub fn damage(random: &mut Random, text: &mut Vec<u8>) {
    let at = random.below(text.len() + 1);
    let byte = match random.below(4) {
        0 => random.byte(),
        _ => random.pick(NEAR),
    };
    match random.below(16) {
        0..=2 => {
            if let Some(changed) = text.get_mut(at) {
                *changed = byte;
            }
        }
        3..=4 => _ = text.drain(at..(at + 1).min(text.len())),
        5..=6 => text.insert(at, byte),
        7 => text.truncate(at),
        8 => _ = text.drain(text.len().saturating_sub(1)..),
        9 => swap_lines(random, text),
        10..=11 => mix_marks(random, text),
        12..=14 => edit_a_number(random, text),
        _ => change_a_length(random, text),
    }
}

/// Has two lines change places.
fn swap_lines(random: &mut Random, text: &mut Vec<u8>) {
    let mut lines: Vec<&[u8]> = text.split_inclusive(|&byte| byte == b'\n').collect();
    if lines.is_empty() {
        return;
    }
    let (one, two) = (random.below(lines.len()), random.below(lines.len()));
    lines.swap(one, two);
    *text = lines.concat();
}

/// Makes one mark the other one, or puts a mark and a number after a number.
fn mix_marks(random: &mut Random, text: &mut Vec<u8>) {
    let marks: Vec<usize> = places_of(text, |byte| b",-".contains(&byte));
    if marks.is_empty() || random.once_in(4) {
        let ends = places_of(text, |byte| byte == b'\n');
        if !ends.is_empty() {
            let end = random.pick(&ends);
            let more = random.pick(&[b",9", b"-9", b",1", b"-1"]);
            text.splice(end..end, more.iter().copied());
        }
        return;
    }
    let at = random.pick(&marks);
    text[at] = if text[at] == b',' { b'-' } else { b',' };
}

/// Puts an odd number in place of one that a text has.
fn edit_a_number(random: &mut Random, text: &mut Vec<u8>) {
    let digits = places_of(text, |byte| byte.is_ascii_digit());
    if digits.is_empty() {
        return;
    }
    let at = random.pick(&digits);
    let is_digit = |byte: &u8| byte.is_ascii_digit();
    let start = at
        - text[..at]
            .iter()
            .rev()
            .take_while(|byte| is_digit(byte))
            .count();
    let end = at + text[at..].iter().take_while(|byte| is_digit(byte)).count();
    let odd = random.pick(&ODD_NUMBERS);
    text.splice(start..end, odd.bytes());
}

/// Makes a word one letter longer, or shorter.
fn change_a_length(random: &mut Random, text: &mut Vec<u8>) {
    let letters = places_of(text, |byte| b"ACGT".contains(&byte));
    if letters.is_empty() {
        return;
    }
    let at = random.pick(&letters);
    match random.below(2) {
        0 => text.insert(at, random.pick(b"ACGT")),
        _ => _ = text.remove(at),
    }
}

/// Where a text has bytes of this sort.
fn places_of(text: &[u8], is_one: impl Fn(u8) -> bool) -> Vec<usize> {
    (0..text.len()).filter(|&at| is_one(text[at])).collect()
}
