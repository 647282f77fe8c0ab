//! A record as a name and letters.

use super::is_name;
use crate::letters::{are_letters, is_letter};
use crate::numbers::{LINE_LETTERS, NEWLINE, RECORD_START};
use crate::refusal::{Reason, Refusal};

/// How long the two parts of a record are.
#[derive(Clone, Copy, Debug, PartialEq, Eq)]
pub struct Parts {
    /// The bytes of the name.
    pub name: usize,
    /// The number of letters.
    pub letters: usize,
}

/// Reads a record into two outputs, and answers how long its name is and how many letters it has.
///
/// Tested, each over the whole record, are 20; 21 with the number of letters
/// before the first byte that is neither a letter nor a newline, or at 0 where
/// there is no letter; 22 where the lines are not as they must be; and 12 where
/// either output is too short. A refusal changes no byte, and the bytes after
/// the name and after the letters are never changed.
pub fn read(record: &[u8], name: &mut [u8], letters: &mut [u8]) -> Result<Parts, Refusal> {
    let (named, body) = name_and_body(record).ok_or(Reason::Name.at(0))?;
    if !is_in_lines(body) {
        return Err(fault(body));
    }
    let breaks = body.len().div_ceil(LINE_LETTERS + 1);
    let parts = Parts {
        name: named.len(),
        letters: body.len() - breaks,
    };
    let name = name.get_mut(..parts.name);
    let letters = letters.get_mut(..parts.letters);
    let (Some(name), Some(letters)) = (name, letters) else {
        return Err(Reason::Room.at(0));
    };
    name.copy_from_slice(named);
    let lines = body.chunks(LINE_LETTERS + 1);
    for (line, letters) in lines.zip(letters.chunks_mut(LINE_LETTERS)) {
        letters.copy_from_slice(&line[..letters.len()]);
    }
    Ok(parts)
}

/// The name of a record, and what follows its newline, or nothing where there is no such name.
fn name_and_body(record: &[u8]) -> Option<(&[u8], &[u8])> {
    let rest = record.strip_prefix(&[RECORD_START])?;
    let end = rest.iter().position(|&byte| byte == NEWLINE)?;
    let (name, body) = rest.split_at(end);
    is_name(name).then_some((name, &body[1..]))
}

/// Says whether a body is letters in lines of 60, of which the last may be shorter, each ended by a newline.
fn is_in_lines(body: &[u8]) -> bool {
    // Of the pieces only the last can be shorter than a full line with its newline.
    let mut lines = body.chunks(LINE_LETTERS + 1);
    !body.is_empty() && lines.all(is_line)
}

/// Says whether this is one letter or more and then a newline.
fn is_line(line: &[u8]) -> bool {
    match line.split_last() {
        Some((&NEWLINE, letters)) => !letters.is_empty() && are_letters(letters),
        _ => false,
    }
}

/// Why a body is not letters in lines of 60.
fn fault(body: &[u8]) -> Refusal {
    let is_other = |&byte: &u8| byte != NEWLINE && !is_letter(byte);
    let other = body.iter().position(is_other);
    let before = &body[..other.unwrap_or(body.len())];
    let letters = before.iter().filter(|&&byte| is_letter(byte)).count();
    if other.is_some() || letters == 0 {
        Reason::Letter.at(letters)
    } else {
        Reason::Line.at(0)
    }
}
