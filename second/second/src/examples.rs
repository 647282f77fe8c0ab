//! Cards that more than one module's tests look at.

use crate::cards::Draft;
use crate::entry::Stored;
use crate::profile::Kind;

/// The S1 card, AC[0,2] CA[1,3] AG[0,2] GA[1,3], with its sums reckoned by hand.
pub fn s1() -> Vec<u8> {
    let mut card = vec![0; 1024];
    card[..6].copy_from_slice(&[1, 2, 2, 0, 4, 0]);
    card[510..512].copy_from_slice(&[9, 233]);
    card[512..520].copy_from_slice(&[1, 0, 0, 0, 0, 0, 2, 0]);
    card[520..528].copy_from_slice(&[4, 0, 0, 0, 1, 0, 3, 0]);
    card[528..536].copy_from_slice(&[2, 0, 0, 0, 0, 0, 2, 0]);
    card[536..544].copy_from_slice(&[8, 0, 0, 0, 1, 0, 3, 0]);
    card[1020..1024].copy_from_slice(&[1, 0, 28, 28]);
    card
}

/// A sound draft whose every entry has word 0 and place 0 alone.
pub fn plain(kind: Kind, l: u8, m: u16) -> Draft {
    let two = match kind {
        Kind::Pair => 65_535,
        Kind::Span => 0,
    };
    let entry = Stored {
        word: 0,
        one: 0,
        two,
    };
    Draft {
        form: 1,
        kind: kind.number(),
        l,
        m,
        entries: vec![entry; usize::from(m)],
    }
}
