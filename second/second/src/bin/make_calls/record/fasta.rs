//! The records of FASTA records: writing one and reading it back, and reading any.

use second::fasta::{read, write, Parts};
use second::refusal::Refusal;
use second::stored::{refusal_words, BYTE_BEFORE};

use super::{beginning, called, hash_of, words, Called, Record, LONGEST_CARD};

/// The most bytes that a FASTA record may have, a name, letters, and an output for each.
pub const LONGEST_PART: usize = LONGEST_CARD;

/// The answer to a call that reads, and the two whole outputs after it, the name's first.
pub type Parted = (Result<Parts, Refusal>, [Vec<u8>; 2]);

/// How many calls there are, and how often each answer came.
#[derive(Default)]
pub struct Fastas {
    writes: usize,
    reads: usize,
    answered: usize,
    refused: usize,
}

impl Fastas {
    /// All of it in one line.
    pub fn summary(&self) -> String {
        let Fastas {
            writes,
            reads,
            answered,
            refused,
        } = self;
        let total = writes + reads;
        format!(
            "fasta {total}: writes {writes}, reads {reads}; answered {answered}, refused {refused}"
        )
    }

    /// Counts an answer.
    fn count(&mut self, is_answered: bool) {
        match is_answered {
            true => self.answered += 1,
            false => self.refused += 1,
        }
    }
}

impl Record {
    /// Records writing a name and letters into an output of this room, and reading what was written; gives the outcome of writing.
    ///
    /// What is read must be the name and the letters, and the program stops if it is not.
    pub fn write_fasta(&mut self, name: &[u8], letters: &[u8], room: usize) -> Called {
        self.put_tag_and_lengths(b'W', [name.len(), letters.len(), room]);
        self.put(name);
        self.put(letters);
        self.fastas.writes += 1;
        let written = called(room, |out| write(name, letters, out));
        let mut line = words("record", &written);
        let (answer, out) = &written;
        if let Ok(length) = answer {
            let own = own_parts(name, letters);
            let again = parted(&out[..*length], [LONGEST_PART; 2]);
            assert!(again == own, "what is read of what was written");
            line.push(' ');
            line.push_str(&parted_words(&own));
        }
        self.line(&line);
        self.fastas.count(answer.is_ok());
        written
    }

    /// Records reading a record into outputs of these rooms, and gives the outcome.
    pub fn read_fasta(&mut self, record: &[u8], rooms: [usize; 2]) -> Parted {
        let [for_name, for_letters] = rooms;
        self.put_tag_and_lengths(b'R', [record.len(), for_name, for_letters]);
        self.put(record);
        self.fastas.reads += 1;
        let parted = parted(record, rooms);
        self.line(&parted_words(&parted));
        self.fastas.count(parted.0.is_ok());
        parted
    }

    /// Puts the tag of a record, and three lengths.
    fn put_tag_and_lengths(&mut self, tag: u8, lengths: [usize; 3]) {
        assert!(lengths.iter().all(|&n| n <= LONGEST_PART), "{lengths:?}");
        self.stdin.push(tag);
        for length in lengths {
            self.put(&(length as u16).to_le_bytes());
        }
    }
}

/// What reading makes of outputs of these rooms.
fn parted(record: &[u8], rooms: [usize; 2]) -> Parted {
    let [mut name, mut letters] = rooms.map(|room| vec![BYTE_BEFORE; room]);
    let answer = read(record, &mut name, &mut letters);
    (answer, [name, letters])
}

/// What must come of a name and letters by way of their record.
fn own_parts(name: &[u8], letters: &[u8]) -> Parted {
    let parts = Parts {
        name: name.len(),
        letters: letters.len(),
    };
    let outs = [name, letters].map(|part| beginning(part, LONGEST_PART));
    (Ok(parts), outs)
}

/// An answer, and the numbers that stand for the two whole outputs.
fn parted_words((answer, [name, letters]): &Parted) -> String {
    let answer = match answer {
        Ok(parts) => format!("parts {} {}", parts.name, parts.letters),
        Err(refusal) => refusal_words(*refusal),
    };
    format!("{answer} {} {}", hash_of(name), hash_of(letters))
}
