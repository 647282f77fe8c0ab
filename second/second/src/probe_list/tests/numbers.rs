//! The numbers of lines, and the lengths of words.

use super::{at_each_line, card, means, refused};
use crate::numbers::NO_PLACE;
use crate::profile::Kind;
use crate::refusal::Reason;

/// The ways to write a number in a line: alone, or as one of two.
fn ways(number: &str) -> [String; 5] {
    [
        format!("AC\t{number}\n"),
        format!("AC\t{number},2\n"),
        format!("AC\t1,{number}\n"),
        format!("AC\t{number}-2\n"),
        format!("AC\t1-{number}\n"),
    ]
}

#[test]
fn needless_zeros_and_numbers_too_large() {
    let wrong = [
        "00",
        "000",
        "07",
        "01",
        "010",
        "065535",
        "65536",
        "65540",
        "70000",
        "99999",
        "100000",
        "131073",
        "4294967297",
        "18446744073709551617",
        "10000000000000000000",
        "99999999999999999999",
        "00000000000000000000",
        "00000000000000000001",
    ];
    for number in wrong {
        for line in ways(number) {
            for (at, list) in at_each_line("AC\t1\n", &line) {
                refused(list, Reason::Text.at(at));
            }
        }
    }
    let digits = "1".repeat(100_000);
    refused(format!("AC\t{digits}\n"), Reason::Text.at(1));
}

#[test]
fn place_0() {
    for line in ways("0") {
        for (at, list) in at_each_line("AC\t1\n", &line) {
            refused(list, Reason::Zero.at(at));
        }
    }
    refused("AC\t0,0\n", Reason::Zero.at(1));
    refused("AC\t0-0\n", Reason::Zero.at(1));
}

#[test]
fn the_largest_number_is_sound_text() {
    for line in ways("65535") {
        refused(&line, Reason::Places.at(0));
        refused(format!("AC\t1\n{line}AC\t2\n"), Reason::Places.at(1));
    }
    refused("AC\t65535,65535\n", Reason::Places.at(0));
    refused("AC\t65535-65535\n", Reason::Places.at(0));
    refused("AC\t65534,65535\n", Reason::Places.at(0));
}

#[test]
fn words_of_every_length() {
    refused("\t1\n", Reason::Text.at(1));
    for l in [1, 13, 14, 16, 17, 32, 1000, 70_000] {
        let word = "A".repeat(l);
        refused(format!("{word}\t1\n"), Reason::WordLength.at(0));
        refused(format!("{word}\t1\n{word}\t2\n"), Reason::WordLength.at(0));
    }
    for l in 2..=12 {
        let word = "T".repeat(l.into());
        let all_threes = (1 << (2 * l)) - 1;
        let one = card(Kind::Pair, l, &[(all_threes, 0, NO_PLACE)]);
        means(format!("{word}\t1\n"), &one);
        let last = format!("{}C", "A".repeat(usize::from(l) - 1));
        means(format!("{last}\t1-1\n"), &card(Kind::Span, l, &[(1, 0, 0)]));
    }
}
