//! What programs that store calls share: what an output holds before a call, the words of the lines, and how a sequence is read.

use crate::build::Built;
use crate::letters::codes;
use crate::lists::{Lists, LONGEST_LIST};
use crate::refusal::Refusal;
use crate::spans::words_in;
use crate::verdict::{Found, Verdict};

/// What every byte of an output holds before the call.
pub const BYTE_BEFORE: u8 = 165;
/// The most bytes that an output for a sequence may have.
pub const LONGEST_OUTPUT: usize = LONGEST_LIST as usize;

/// The answer to a call that builds, and the whole output after it.
pub type Outcome = (Result<Built, Refusal>, Vec<u8>);

/// Says whether every byte is as before the call.
pub fn is_untouched(out: &[u8]) -> bool {
    out.iter().all(|&byte| byte == BYTE_BEFORE)
}

/// The line of a call that builds: its answer, and the number that stands for the whole output.
pub fn outcome_words((answer, out): &Outcome) -> String {
    let words = match answer {
        Ok(built) => built_words(*built),
        Err(refusal) => refusal_words(*refusal),
    };
    let hash = hash(out.iter().map(|&byte| u64::from(byte)));
    format!("{words} {hash}")
}

/// The verdict and its numbers.
fn built_words(built: Built) -> String {
    let Built {
        verdict,
        length,
        placements,
    } = built;
    let name = verdict.name();
    match verdict {
        Verdict::Sole | Verdict::Several => format!("{name} {length} {placements}"),
        Verdict::None | Verdict::Unsettled => format!("{name} {placements}"),
    }
}

/// The refusal's number and place.
pub fn refusal_words(refusal: Refusal) -> String {
    format!("refused {} {}", refusal.number(), refusal.place)
}

/// A number that stands for a list of numbers, so that the lines stay short.
pub fn hash(elements: impl Iterator<Item = u64>) -> u64 {
    elements.fold(1, |h, element| (h * 257 + element) % 65_521)
}

/// What was found of sound lists, with the words read from the letters of the output.
///
/// The program stops if the length is not that of a build, or a byte after it is touched.
pub fn read(lists: &Lists, built: Built, out: &[u8]) -> Found {
    let length = match built.verdict {
        Verdict::Sole | Verdict::Several => lists.build_length(),
        Verdict::None | Verdict::Unsettled => 0,
    };
    assert_eq!(built.length, length, "the length of {lists:?}");
    let (letters, later) = out.split_at(length);
    assert!(is_untouched(later), "a byte after the build is touched");
    let codes = codes(letters).expect("a build of letters alone");
    let words = words_in(&codes, lists.l);
    Found::new(built.verdict, built.placements, &words)
}
