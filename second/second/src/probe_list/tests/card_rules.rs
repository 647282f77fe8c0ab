//! The rules of a card after those of the text, with the card's own places: 6, 7, 11, then 12.

use super::{card, lines, means, refused};
use crate::numbers::NO_PLACE;
use crate::profile::Kind;
use crate::refusal::Reason;

#[test]
fn places_in_the_wrong_order() {
    refused("AC\t7,3\n", Reason::Places.at(0));
    refused("AC\t7,7\n", Reason::Places.at(0));
    refused("AC\t7-3\n", Reason::Places.at(0));
    let seven = |line: &str| format!("{}{line}", "AC\t1\n".repeat(6));
    refused(seven("AC\t7,3\n"), Reason::Places.at(6));
    refused(seven("AC\t7,7\n"), Reason::Places.at(6));
    refused(seven("AC\t7-3\n"), Reason::Places.at(6));
    let spans = [&[(1, 0, 0); 6][..], &[(1, 6, 6)]].concat();
    means(seven("AC\t7-7\n"), &card(Kind::Span, 2, &spans));
}

#[test]
fn places_beyond_the_last() {
    // The entry is counted from 0, where a line is counted from 1.
    refused("AC\t2\n", Reason::Places.at(0));
    refused("AC\t4\nAC\t1\nAC\t1\n", Reason::Places.at(0));
    refused("AC\t1\nAC\t4\nAC\t1\n", Reason::Places.at(1));
    refused("AC\t1\nAC\t1\nAC\t4\n", Reason::Places.at(2));
    refused("AC\t1,3\nAC\t1,4\nAC\t9\n", Reason::Places.at(1));
    refused("AC\t1-3\nAC\t3\nAC\t3-4\n", Reason::Places.at(2));
    let last = [(1, 2, NO_PLACE), (1, 0, 2), (1, 0, NO_PLACE)];
    means("AC\t3\nAC\t1,3\nAC\t1\n", &card(Kind::Pair, 2, &last));
}

#[test]
fn spans_of_eight_and_nine() {
    let list = |span: &str| format!("{}AC\t{span}\n", "AC\t1\n".repeat(9));
    let mut spans = vec![(1, 0, 0); 9];
    spans.push((1, 1, 8));
    means(list("2-9"), &card(Kind::Span, 2, &spans));
    refused(list("1-9"), Reason::Places.at(9));
    refused(list("2-10"), Reason::Places.at(9));
    // A pair may be as far apart as there are places.
    let mut pairs = vec![(1, 0, NO_PLACE); 9];
    pairs.push((1, 0, 9));
    means(list("1,10"), &card(Kind::Pair, 2, &pairs));
}

#[test]
fn the_number_of_lines() {
    for m in [503, 504] {
        let ones = vec![(1, 0, NO_PLACE); m];
        means(lines(m), &card(Kind::Pair, 2, &ones));
    }
    for m in [505, 506, 600, 65_536, 65_537, 65_536 + 504] {
        refused(lines(m), Reason::Count.at(0));
    }
    // Of any kind, also where an entry is wrong, which comes after it.
    let list = [&b"AC\t9-1\n"[..], &lines(504)].concat();
    refused(list, Reason::Count.at(0));
    let list = [&b"AC\t504-504\n"[..], &lines(503)].concat();
    let spans = [&[(1, 503, 503)], &[(1, 0, 0); 503][..]].concat();
    means(list, &card(Kind::Span, 2, &spans));
}

#[test]
fn the_order_of_a_card() {
    // 6 before 7 before 11.
    let many = "A\t9\n".repeat(505);
    refused(many, Reason::WordLength.at(0));
    let many = "AC\t999\n".repeat(505);
    refused(many, Reason::Count.at(0));
    refused("A\t9\n", Reason::WordLength.at(0));
    refused("AC\t9\nAC\t9\n", Reason::Places.at(0));
}
