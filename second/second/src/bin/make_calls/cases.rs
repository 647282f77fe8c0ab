//! The cases of the stored calls: how many builds there are, then what is settled, then lists as texts, then FASTA records.
//!
//! Where a case is made for one answer or for one rule, the answer is stated
//! beside it, and the program stops if `second` says otherwise.

mod counting;
mod fasta;
mod ladders;
mod listing;
mod settling;

use second::cards::Random;
use second::profile::Kind;

use crate::record::Record;

/// Both kinds of card.
const KINDS: [Kind; 2] = [Kind::Pair, Kind::Span];

/// The calls in the making.
pub struct Cases {
    record: Record,
    random: Random,
}

impl Cases {
    /// All calls that this seed draws.
    pub fn all(seed: u64) -> Record {
        let mut cases = Cases {
            record: Record::default(),
            random: Random::new(seed),
        };
        cases.counting();
        cases.settling();
        cases.listing();
        cases.fasta();
        cases.record
    }
}
