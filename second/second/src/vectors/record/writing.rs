//! The records of writing: from lists of their own, and the current card again.

use super::Record;
use crate::lists::{Lists, LONGEST_LIST};
use crate::reader;
use crate::refusal::{Reason, Refusal};
use crate::stored::{hash, refusal_words, BYTE_BEFORE};

/// The most bytes that an output of the vectors may have.
pub const LONGEST_ROOM: usize = 6400;

/// The answer to a call of the writer, and the whole output after it.
pub type Written = (Result<usize, Refusal>, Vec<u8>);

impl Record {
    /// Records writing a card from the lists into an output of this room, and gives the outcome.
    pub fn write(&mut self, lists: &Lists, room: usize) -> Written {
        let lengths = [lists.words.len(), lists.ones.len(), lists.twos.len()];
        assert!(lengths.iter().all(|&n| n <= usize::from(LONGEST_LIST)));
        self.stdin.push(b'W');
        for number in [lists.kind, lists.l] {
            self.stdin.extend_from_slice(&(number as u64).to_le_bytes());
        }
        for length in lengths {
            self.stdin.extend_from_slice(&(length as u16).to_le_bytes());
        }
        self.put_room(room);
        self.put_lists(lists);
        let written = write(lists, room);
        if let (Ok(length), out) = &written {
            self.as_lists.add(&out[..*length]);
        }
        self.written_line(6, &written);
        written
    }

    /// Records listing the current card and writing it again into an output of this room.
    ///
    /// The line is made without the writer: a card that was listed must come
    /// out as its own bytes, and the program stops if it does not.
    pub fn again(&mut self, room: usize) {
        let expected = self.own_bytes(room);
        if let Ok(lists) = Lists::of_card(&self.card) {
            let written = write(&lists, room);
            assert!(
                written == expected,
                "a card of {} bytes, written again into {room} bytes, is not itself: {:?}",
                self.card.len(),
                written.0,
            );
        }
        self.stdin.push(b'R');
        self.put_room(room);
        self.written_line(7, &expected);
    }

    /// What must come of writing the current card again: its own bytes, if admitted, with room.
    fn own_bytes(&self, room: usize) -> Written {
        let mut out = vec![BYTE_BEFORE; room];
        let n = self.card.len();
        let answer = match reader::admit(&self.card) {
            Err(refusal) => Err(refusal),
            Ok(_) if room < n => Err(Reason::Room.at(0)),
            Ok(_) => {
                out[..n].copy_from_slice(&self.card);
                Ok(n)
            }
        };
        (answer, out)
    }

    /// Puts the room of an output.
    fn put_room(&mut self, room: usize) {
        assert!(room <= LONGEST_ROOM, "an output of {room}");
        self.stdin.extend_from_slice(&(room as u16).to_le_bytes());
    }

    /// Puts the line of a call of the writer.
    fn written_line(&mut self, operation: usize, (answer, out): &Written) {
        let verdict = match answer {
            Ok(length) => format!("written {length}"),
            Err(refusal) => refusal_words(*refusal),
        };
        let hash = hash(out.iter().map(|&byte| u64::from(byte)));
        self.line(operation, &format!("{verdict} {hash}"), answer.is_err());
    }
}

/// What comes of writing the lists into an output of this room.
fn write(lists: &Lists, room: usize) -> Written {
    let mut out = vec![BYTE_BEFORE; room];
    let answer = lists.write(&mut out);
    (answer, out)
}
