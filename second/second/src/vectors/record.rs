//! The two files of the vectors as they grow, and the words of each answer.

mod admitted;
mod building;
mod writing;

use crate::block;
use crate::entry::{Entry, Places};
use crate::lists::{Lists, LONGEST_LIST};
use crate::profile::Profile;
use crate::reader::{self, Head};
use crate::refusal::Refusal;
use crate::stored::{hash, refusal_words};
use crate::verdict::Verdict;

use admitted::Admitted;

pub use building::MOST_PLACEMENTS;
pub use writing::LONGEST_ROOM;

/// The most bytes that a card of the vectors may have.
const LONGEST_CARD: usize = 6144;
/// What every slot of the words holds before the call.
const WORD_BEFORE: u32 = 305_419_896;
/// What every slot of the places holds before the call.
const PLACE_BEFORE: u16 = 4660;

/// The names of the operations, in the order of their counts.
const OPERATIONS: [&str; 9] = [
    "admit",
    "entry",
    "step",
    "fetch",
    "companion",
    "lists",
    "write",
    "again",
    "build",
];

/// The verdicts, in the order of their counts.
const VERDICTS: [Verdict; 4] = [
    Verdict::Sole,
    Verdict::Several,
    Verdict::None,
    Verdict::Unsettled,
];

/// How often an operation was recorded.
#[derive(Clone, Copy, Default)]
pub struct Count {
    /// All records of the operation.
    pub all: usize,
    /// Those that were refused.
    pub refused: usize,
}

/// The vectors so far, with the card that the next operation is given.
#[derive(Default)]
pub struct Record {
    stdin: Vec<u8>,
    stdout: String,
    card: Vec<u8>,
    counts: [Count; OPERATIONS.len()],
    verdicts: [usize; VERDICTS.len()],
    placements: u64,
    as_bytes: Admitted,
    as_lists: Admitted,
}

impl Record {
    /// The records, one after the other.
    pub fn stdin(&self) -> &[u8] {
        &self.stdin
    }

    /// The lines that the records give.
    pub fn stdout(&self) -> &str {
        &self.stdout
    }

    /// Each operation's name with its counts.
    pub fn counts(&self) -> impl Iterator<Item = (&'static str, Count)> + '_ {
        OPERATIONS.into_iter().zip(self.counts)
    }

    /// The number of operation records.
    pub fn total(&self) -> usize {
        self.counts.iter().map(|count| count.all).sum()
    }

    /// Each verdict's name with the number of builds that came to it.
    pub fn verdicts(&self) -> impl Iterator<Item = (&'static str, usize)> + '_ {
        let names = VERDICTS.into_iter().map(Verdict::name);
        names.zip(self.verdicts)
    }

    /// The placements of all walks.
    pub fn placements(&self) -> u64 {
        self.placements
    }

    /// The admitted cards that records have as bytes, each once.
    pub fn cards_as_bytes(&self) -> &[Vec<u8>] {
        self.as_bytes.cards()
    }

    /// The admitted cards that records have as lists, each once.
    pub fn cards_as_lists(&self) -> &[Vec<u8>] {
        self.as_lists.cards()
    }

    /// The current card.
    pub fn card(&self) -> &[u8] {
        &self.card
    }

    /// Sets the current card.
    pub fn set_card(&mut self, card: &[u8]) {
        assert!(card.len() <= LONGEST_CARD, "a card of {}", card.len());
        self.stdin.push(b'C');
        self.stdin
            .extend_from_slice(&(card.len() as u32).to_le_bytes());
        self.stdin.extend_from_slice(card);
        self.as_bytes.add(card);
        self.card = card.to_vec();
    }

    /// Records admitting the card, and gives the answer.
    pub fn admit(&mut self) -> Result<Profile, Refusal> {
        let answer = reader::admit(&self.card);
        self.stdin.push(b'A');
        let line = match answer {
            Ok(profile) => format!("admit {}", profile_words(profile)),
            Err(refusal) => refusal_words(refusal),
        };
        self.line(0, &line, answer.is_err());
        answer
    }

    /// Records fetching entry i, and gives the answer.
    pub fn entry(&mut self, i: u64) -> Result<Entry, Refusal> {
        let answer = reader::entry(&self.card, i as usize);
        self.put_index(b'E', i);
        let line = match answer {
            Ok(entry) => format!("entry {}", entry_words(entry)),
            Err(refusal) => refusal_words(refusal),
        };
        self.line(1, &line, answer.is_err());
        answer
    }

    /// Records a step from head h, and gives the answer.
    pub fn step(&mut self, h: u64) -> Result<Option<(Entry, Head)>, Refusal> {
        let answer = Head { at: h as usize }.step(&self.card);
        self.put_index(b'H', h);
        let line = match answer {
            Ok(Some((entry, moved))) => format!("step {} {}", entry_words(entry), moved.at),
            Ok(None) => "end".to_string(),
            Err(refusal) => refusal_words(refusal),
        };
        self.line(2, &line, answer.is_err());
        answer
    }

    /// Records fetching block k, and says whether there was a part.
    pub fn fetch(&mut self, k: u64) -> bool {
        let part: &[u8] = match block::fetch(&self.card, k as usize) {
            Some(block) => block,
            None => &[],
        };
        let found = !part.is_empty();
        let hash = hash(part.iter().map(|&byte| u64::from(byte)));
        let line = format!("part {} {hash}", part.len());
        self.put_index(b'B', k);
        self.line(3, &line, !found);
        found
    }

    /// Records the companion of fetching block k, and gives the answer.
    pub fn companion(&mut self, k: u64) -> Result<(), Refusal> {
        let answer = block::companion(&self.card, k as usize);
        self.put_index(b'F', k);
        let line = match answer {
            Ok(()) => "holds".to_string(),
            Err(refusal) => refusal_words(refusal),
        };
        self.line(4, &line, answer.is_err());
        answer
    }

    /// Records admitting the card into lists of these lengths, and gives the answer.
    pub fn lists(&mut self, words: u16, ones: u16, twos: u16) -> Result<Profile, Refusal> {
        assert!(words.max(ones).max(twos) <= LONGEST_LIST);
        self.stdin.push(b'L');
        for slots in [words, ones, twos] {
            self.stdin.extend_from_slice(&slots.to_le_bytes());
        }
        let mut words = vec![WORD_BEFORE; usize::from(words)];
        let mut ones = vec![PLACE_BEFORE; usize::from(ones)];
        let mut twos = vec![PLACE_BEFORE; usize::from(twos)];
        let answer = reader::admit_into(&self.card, &mut words, &mut ones, &mut twos);
        let verdict = match answer {
            Ok(profile) => format!("lists {}", profile_words(profile)),
            Err(refusal) => refusal_words(refusal),
        };
        let x = hash(words.into_iter().map(u64::from));
        let y = hash(ones.into_iter().map(u64::from));
        let z = hash(twos.into_iter().map(u64::from));
        self.line(5, &format!("{verdict} {x} {y} {z}"), answer.is_err());
        answer
    }

    /// Puts an operation's tag and its number.
    fn put_index(&mut self, tag: u8, index: u64) {
        self.stdin.push(tag);
        self.stdin.extend_from_slice(&index.to_le_bytes());
    }

    /// Puts the elements of three lists.
    fn put_lists(&mut self, lists: &Lists) {
        for word in &lists.words {
            self.stdin.extend_from_slice(&word.to_le_bytes());
        }
        for place in lists.ones.iter().chain(&lists.twos) {
            self.stdin.extend_from_slice(&place.to_le_bytes());
        }
    }

    /// Puts an operation's line and counts it.
    fn line(&mut self, operation: usize, line: &str, refused: bool) {
        self.stdout.push_str(line);
        self.stdout.push('\n');
        let count = &mut self.counts[operation];
        count.all += 1;
        count.refused += usize::from(refused);
    }
}

/// The kind's number, l and m.
fn profile_words(profile: Profile) -> String {
    let Profile { kind, l, m } = profile;
    format!("{} {l} {m}", kind.number())
}

/// The word, the name of its places, and the places.
fn entry_words(entry: Entry) -> String {
    let word = entry.word;
    match entry.places {
        Places::One(place) => format!("{word} one {place}"),
        Places::Two(one, two) => format!("{word} two {one} {two}"),
        Places::Span(first, last) => format!("{word} span {first} {last}"),
    }
}
