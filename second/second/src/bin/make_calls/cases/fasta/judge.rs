//! What a call must give, by laying a record out letter by letter and looking whether it is the one that was given, which `fasta` does not do.

use second::records::record_of;
use second::stored::BYTE_BEFORE;

use super::Refused;

/// The record of a name and letters, or the refusal that they must get where there is room.
pub fn judged_record(name: &[u8], letters: &[u8]) -> Result<Vec<u8>, Refused> {
    hold_name(name)?;
    hold_letters(letters)?;
    Ok(record_of(name, letters))
}

/// The name and the letters of a record, or the refusal that it must get where there is room.
pub fn judged_parts(record: &[u8]) -> Result<[Vec<u8>; 2], Refused> {
    let mut lines = record.split(|&byte| byte == b'\n');
    let name = lines.next().and_then(|line| line.strip_prefix(b">"));
    let name = name.unwrap_or(b"");
    let lines: Vec<&[u8]> = lines.collect();
    // Without a newline there is no line after the first, not even an empty one.
    hold_name(if lines.is_empty() { b"" } else { name })?;
    let letters = lines.concat();
    hold_letters(&letters)?;
    match record_of(name, &letters) == record {
        true => Ok([name.to_vec(), letters]),
        false => Err((22, 0)),
    }
}

/// The answer and the outputs of these rooms, where a call must put these parts at their starts, or is refused.
pub fn outcome<const N: usize>(
    parts: Result<[Vec<u8>; N], Refused>,
    rooms: [usize; N],
) -> (Result<[usize; N], Refused>, [Vec<u8>; N]) {
    let mut outs = rooms.map(|room| vec![BYTE_BEFORE; room]);
    let parts = match parts {
        Ok(parts) => parts,
        Err(refused) => return (Err(refused), outs),
    };
    let lengths = parts.each_ref().map(Vec::len);
    if lengths
        .iter()
        .zip(rooms)
        .any(|(&length, room)| length > room)
    {
        return (Err((12, 0)), outs);
    }
    for (out, part) in outs.iter_mut().zip(parts) {
        out.splice(..part.len(), part);
    }
    (Ok(lengths), outs)
}

/// Refuses a name that no record can have.
fn hold_name(name: &[u8]) -> Result<(), Refused> {
    let is_one = matches!(name.len(), 1..=40) && name.iter().all(|byte| matches!(byte, 33..=126));
    is_one.then_some(()).ok_or((20, 0))
}

/// Refuses letters of which there is none, or that are not all letters.
fn hold_letters(letters: &[u8]) -> Result<(), Refused> {
    let text: String = letters.iter().map(|&byte| char::from(byte)).collect();
    let rest = text.trim_start_matches(['A', 'C', 'G', 'T']);
    let before = text.len() - rest.len();
    match before > 0 && rest.is_empty() {
        true => Ok(()),
        false => Err((21, before)),
    }
}
