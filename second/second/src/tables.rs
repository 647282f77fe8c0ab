//! The twelve small tables of the scope document, with what it says of each.

use crate::entry::Stored;
use crate::letters::codes;
use crate::lists::Lists;
use crate::numbers::NO_PLACE;
use crate::profile::Kind;
use crate::spans::words_in;
use crate::verdict::Verdict::{self, None, Several, Sole};

/// A small table and its answer.
pub struct Table {
    /// P1 to P7, S1 to S5.
    pub name: &'static str,
    /// The entries, whose words have two letters.
    pub lists: Lists,
    /// The verdict: at every budget on a pair card, from the placements on on a span card.
    pub verdict: Verdict,
    /// The sequence, or nothing where there is no build.
    pub sequence: &'static str,
    /// The placements, which are 0 on a pair card.
    pub placements: u32,
}

/// An entry: its word, place one and place two.
type Row = (&'static str, u16, u16);

/// P1 to P7, then S1 to S5.
pub fn tables() -> [Table; 12] {
    const NO: u16 = NO_PLACE;
    let p1 = [("AC", 0, 2), ("CA", 1, 3), ("AG", 0, 2), ("GA", 1, 3)];
    let p1_with = |first: Row| [first, p1[1], p1[2], p1[3]];
    let p4 = [("AC", 0, NO), ("CA", 1, 3), ("AG", 0, 2), ("GA", 1, NO)];
    let p5 = [("AA", 0, 1), ("AA", 0, 1)];
    let s1 = [("AC", 0, 2), ("CA", 1, 3), ("AG", 0, 2), ("GA", 1, 3)];
    let s2 = [("AC", 0, 0), ("CA", 1, 3), ("AG", 1, 2), ("GA", 1, 3)];
    let s3 = [("AC", 0, 0), ("CA", 1, 1), ("AG", 2, 3), ("GA", 1, 2)];
    let s4 = [("AA", 0, 2), ("AA", 0, 1), ("AA", 0, 1)];
    let s5 = [("AC", 0, 0), ("CA", 0, 0)];
    [
        pair("P1", &p1, Several, "ACAGA"),
        pair("P2", &p1_with(("AC", 0, NO)), Sole, "ACAGA"),
        pair("P3", &p1_with(("AC", 2, NO)), Sole, "AGACA"),
        pair("P4", &p4, None, ""),
        pair("P5", &p5, Sole, "AAA"),
        pair("P6", &[("AC", 0, NO)], Sole, "AC"),
        pair("P7", &[("AC", 1, NO), ("CA", 1, NO)], None, ""),
        span("S1", &s1, Several, "ACAGA", 8),
        span("S2", &s2, Sole, "ACAGA", 4),
        span("S3", &s3, None, "", 2),
        span("S4", &s4, Sole, "AAAA", 3),
        span("S5", &s5, None, "", 0),
    ]
}

/// A pair table.
fn pair(name: &'static str, rows: &[Row], verdict: Verdict, sequence: &'static str) -> Table {
    Table {
        name,
        lists: lists(Kind::Pair, rows),
        verdict,
        sequence,
        placements: 0,
    }
}

/// A span table.
fn span(
    name: &'static str,
    rows: &[Row],
    verdict: Verdict,
    sequence: &'static str,
    placements: u32,
) -> Table {
    Table {
        name,
        lists: lists(Kind::Span, rows),
        verdict,
        sequence,
        placements,
    }
}

/// The lists with these entries.
fn lists(kind: Kind, rows: &[Row]) -> Lists {
    let mut lists = Lists::empty(usize::from(kind.number()), 2);
    for &(word, one, two) in rows {
        let codes = codes(word.as_bytes()).expect("letters");
        let word = words_in(&codes, 2)[0];
        lists.push(Stored { word, one, two });
    }
    lists
}
