//! Damage to a record.

use super::any_byte;
use crate::cards::Random;

/// Damages a record in one way.
pub fn damage(random: &mut Random, record: &mut Vec<u8>) {
    let at = random.below(record.len() + 1);
    let byte = any_byte(random);
    match random.below(16) {
        0..=3 => {
            if let Some(changed) = record.get_mut(at) {
                *changed = byte;
            }
        }
        4 => _ = record.drain(at..(at + 1).min(record.len())),
        5 => record.insert(at, byte),
        6 => record.truncate(at),
        7 => _ = record.pop(),
        8 => record.push(byte),
        9..=12 => move_a_break(random, record),
        13 => *record = broken_anew(random, record),
        14 => *record = with_returns(record),
        _ => record.extend_from_slice(&record.clone()),
    }
}

/// Puts a break one byte earlier or later, or makes two of it, or none.
fn move_a_break(random: &mut Random, record: &mut Vec<u8>) {
    let breaks: Vec<usize> = (0..record.len())
        .filter(|&at| record[at] == b'\n')
        .collect();
    if breaks.is_empty() {
        return;
    }
    let at = random.pick(&breaks);
    match random.below(4) {
        0 if at > 0 => record.swap(at - 1, at),
        1 if at + 1 < record.len() => record.swap(at, at + 1),
        2 => record.insert(at, b'\n'),
        _ => _ = record.remove(at),
    }
}

/// The same after its first line, in lines of another length, or with none ended but the last.
fn broken_anew(random: &mut Random, record: &[u8]) -> Vec<u8> {
    let head = record.iter().position(|&byte| byte == b'\n');
    let (head, body) = record.split_at(head.map_or(record.len(), |at| at + 1));
    let mut letters = body.to_vec();
    letters.retain(|&byte| byte != b'\n');
    let length = random.pick(&[1, 50, 59, 60, 61, 70, 80, 6000]);
    let lines: Vec<&[u8]> = letters.chunks(length).collect();
    [head, &lines.join(&b'\n'), b"\n"].concat()
}

/// The same with a carriage return before each newline.
fn with_returns(record: &[u8]) -> Vec<u8> {
    let lines: Vec<&[u8]> = record.split(|&byte| byte == b'\n').collect();
    lines.join(&b"\r\n"[..])
}
