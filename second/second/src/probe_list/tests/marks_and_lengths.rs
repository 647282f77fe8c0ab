//! Marks that differ, and words of another length: 24 and 25.

use super::{card, lines, means, refused};
use crate::profile::Kind;
use crate::refusal::Reason;

#[test]
fn the_first_line_whose_mark_differs() {
    refused("AC\t1,2\nAC\t1-2\n", Reason::Mixed.at(2));
    refused("AC\t1-2\nAC\t1,2\n", Reason::Mixed.at(2));
    // A bare line between them has no mark and never differs.
    refused("AC\t1,2\nAC\t1\nAC\t1-2\n", Reason::Mixed.at(3));
    refused("AC\t1\nAC\t1-2\nAC\t1\nAC\t1,2\n", Reason::Mixed.at(4));
    // After a line that differs, one more does not matter.
    refused("AC\t1-2\nAC\t1,2\nAC\t1-2\nAC\t1,2\n", Reason::Mixed.at(2));
    let list = [&b"AC\t1,2\n"[..], &lines(502), b"AC\t1-2\n"].concat();
    refused(list, Reason::Mixed.at(504));
}

#[test]
fn bare_lines_beside_either_mark() {
    let spans = [(1, 0, 0), (1, 0, 1), (1, 1, 1)];
    let spans = card(Kind::Span, 2, &spans);
    means("AC\t1\nAC\t1-2\nAC\t2\n", &spans);
    let pairs = [(1, 0, 65_535), (1, 0, 1), (1, 1, 65_535)];
    let pairs = card(Kind::Pair, 2, &pairs);
    means("AC\t1\nAC\t1,2\nAC\t2\n", &pairs);
}

#[test]
fn the_first_word_of_another_length() {
    for word in ["A", "ACG", "ACGTACGTACGT", "ACGTACGTACGTA"] {
        refused(format!("AC\t1\n{word}\t1\nAC\t1\n"), Reason::Uneven.at(2));
        refused(format!("AC\t1\nAC\t1\n{word}\t1\n"), Reason::Uneven.at(3));
        // The first word is the one that counts, however many others agree.
        refused(format!("{word}\t1\nAC\t1\nAC\t1\n"), Reason::Uneven.at(2));
    }
    let long = "A".repeat(1000);
    refused(format!("AC\t1\n{long}\t1\n"), Reason::Uneven.at(2));
    refused(format!("{long}\t1\nAC\t1\n"), Reason::Uneven.at(2));
    // As long by its lowest byte alone.
    let longer = "A".repeat(258);
    refused(format!("AC\t1\n{longer}\t1\n"), Reason::Uneven.at(2));
    refused(
        [lines(503), b"ACG\t1\n".to_vec()].concat(),
        Reason::Uneven.at(504),
    );
}
