//! The two files of the calls as they grow.

mod counting;
mod fasta;
mod listing;
mod settling;

use second::lists::{Lists, LONGEST_LIST};
use second::refusal::Refusal;
use second::stored::{hash, refusal_words, BYTE_BEFORE};

use counting::Counts;
use fasta::Fastas;
use listing::Listings;
use settling::Settles;

pub use counting::Answer;
pub use fasta::LONGEST_PART;
pub use listing::{LONGEST_ROOM, LONGEST_TEXT};

/// The most bytes that a card may have.
const LONGEST_CARD: usize = 6400;

/// The answer to a call that writes, and the whole output after it.
pub type Called = (Result<usize, Refusal>, Vec<u8>);

/// The calls so far.
#[derive(Default)]
pub struct Record {
    stdin: Vec<u8>,
    stdout: String,
    counts: Counts,
    settles: Settles,
    listings: Listings,
    fastas: Fastas,
}

impl Record {
    /// The records, one after the other.
    pub fn stdin(&self) -> &[u8] {
        &self.stdin
    }

    /// The lines that the records give.
    pub fn stdout(&self) -> &str {
        &self.stdout
    }

    /// How many records there are, and how often each answer came: a line for the counts, for what is settled, for lists as texts, and for FASTA.
    pub fn summary(&self) -> String {
        let Record {
            counts,
            settles,
            listings,
            fastas,
            ..
        } = self;
        let lines = [
            counts.summary(),
            settles.summary(),
            listings.summary(),
            fastas.summary(),
        ];
        lines.join("\n")
    }

    /// Puts the tag of a card's record, and the number of its bytes.
    fn put_size(&mut self, tag: u8, card: &[u8]) {
        assert!(card.len() <= LONGEST_CARD, "a card of {}", card.len());
        self.put_tag_and_size(tag, card);
    }

    /// Puts the tag of a record, and the number of these bytes.
    fn put_tag_and_size(&mut self, tag: u8, bytes: &[u8]) {
        self.stdin.push(tag);
        self.put(&(bytes.len() as u32).to_le_bytes());
    }

    /// Puts the tag of a record of lists, and their kind, l and lengths.
    fn put_numbers(&mut self, tag: u8, lists: &Lists) {
        let lengths = [lists.words.len(), lists.ones.len(), lists.twos.len()];
        assert!(lengths.iter().all(|&n| n <= usize::from(LONGEST_LIST)));
        self.stdin.push(tag);
        for number in [lists.kind, lists.l] {
            self.put(&(number as u64).to_le_bytes());
        }
        for length in lengths {
            self.put(&(length as u16).to_le_bytes());
        }
    }

    /// Puts the elements of three lists.
    fn put_elements(&mut self, lists: &Lists) {
        for word in &lists.words {
            self.put(&word.to_le_bytes());
        }
        for place in lists.ones.iter().chain(&lists.twos) {
            self.put(&place.to_le_bytes());
        }
    }

    /// Puts bytes of a record.
    fn put(&mut self, bytes: &[u8]) {
        self.stdin.extend_from_slice(bytes);
    }

    /// Puts the line of a record.
    fn line(&mut self, line: &str) {
        self.stdout.push_str(line);
        self.stdout.push('\n');
    }
}

/// What a call makes of an output of this room.
fn called(room: usize, call: impl FnOnce(&mut [u8]) -> Result<usize, Refusal>) -> Called {
    let mut out = vec![BYTE_BEFORE; room];
    let answer = call(&mut out);
    (answer, out)
}

/// An answer, which has this name where nothing is refused, and the number that stands for the whole output.
fn words(name: &str, (answer, out): &Called) -> String {
    let answer = match answer {
        Ok(length) => format!("{name} {length}"),
        Err(refusal) => refusal_words(*refusal),
    };
    format!("{answer} {}", hash_of(out))
}

/// The number that stands for a whole output.
fn hash_of(out: &[u8]) -> u64 {
    hash(out.iter().map(|&byte| u64::from(byte)))
}

/// The output of this room that begins with these bytes.
fn beginning(bytes: &[u8], room: usize) -> Vec<u8> {
    let mut out = vec![BYTE_BEFORE; room];
    out[..bytes.len()].copy_from_slice(bytes);
    out
}
