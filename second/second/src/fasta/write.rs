//! A name and letters as a record.

use super::is_name;
use crate::letters::{are_letters, is_letter};
use crate::numbers::{LINE_LETTERS, NEWLINE, RECORD_START};
use crate::refusal::{Reason, Refusal};

/// Writes the record of this name and these letters, and answers its length.
///
/// Tested are 20, then 21 with the number of letters before the first byte
/// that is none, or at 0 where there is no byte at all, then 12 where the
/// output has fewer bytes than the record. A refusal changes no byte, and the
/// bytes after the record are never changed.
pub fn write(name: &[u8], letters: &[u8], out: &mut [u8]) -> Result<usize, Refusal> {
    if !is_name(name) {
        return Err(Reason::Name.at(0));
    }
    if letters.is_empty() || !letters.chunks(LINE_LETTERS).all(are_letters) {
        let before = letters.iter().take_while(|&&byte| is_letter(byte));
        return Err(Reason::Letter.at(before.count()));
    }
    let head = 1 + name.len() + 1;
    // A slice has at most half as many bytes as a length can say, so that this does not run over.
    let length = head + letters.len() + letters.len().div_ceil(LINE_LETTERS);
    let record = out.get_mut(..length).ok_or(Reason::Room.at(0))?;
    let (head, body) = record.split_at_mut(head);
    head[0] = RECORD_START;
    head[1..=name.len()].copy_from_slice(name);
    head[name.len() + 1] = NEWLINE;
    let lines = body.chunks_mut(LINE_LETTERS + 1);
    for (line, letters) in lines.zip(letters.chunks(LINE_LETTERS)) {
        let (start, end) = line.split_at_mut(letters.len());
        start.copy_from_slice(letters);
        end[0] = NEWLINE;
    }
    Ok(length)
}
