//! Lists whose text is not as it must be: 23 with the line.

use super::{at_each_line, card, lines, means, refused};
use crate::numbers::NO_PLACE;
use crate::profile::Kind;
use crate::refusal::Reason;

/// Lines that are wrong by themselves.
const WRONG: [&str; 41] = [
    "\n",
    "\t\n",
    "AC\n",
    "AC\t\n",
    "AC1\n",
    "AC 1\n",
    "\t1\n",
    "1\n",
    "1\tAC\n",
    " AC\t1\n",
    "AC \t1\n",
    "AC\t 1\n",
    "AC\t1 \n",
    "AC\t1\t\n",
    "AC\t\t1\n",
    "AC\t1\t2\n",
    "AC\t1\r\n",
    "AC\t1,3\r\n",
    "AC\t1-3\r\n",
    "ac\t1\n",
    "AN\t1\n",
    "aC\t1\n",
    "A C\t1\n",
    "AC\t+1\n",
    "AC\t-1\n",
    "AC\t,1\n",
    "AC\t1,\n",
    "AC\t1-\n",
    "AC\t,\n",
    "AC\t-\n",
    "AC\t1,,3\n",
    "AC\t1--3\n",
    "AC\t1,-3\n",
    "AC\t1-,3\n",
    "AC\t1,2,3\n",
    "AC\t1-2-3\n",
    "AC\t1-2,3\n",
    "AC\t1, 3\n",
    "AC\t1;3\n",
    "AC\t1.0\n",
    "AC\t1x\n",
];

#[test]
fn a_wrong_line_anywhere() {
    for line in WRONG {
        for (number, list) in at_each_line("AC\t1\n", line) {
            refused(list, Reason::Text.at(number));
        }
    }
}

#[test]
fn no_list_at_all() {
    refused("", Reason::Text.at(1));
    refused("\n", Reason::Text.at(1));
    refused("\n\n", Reason::Text.at(1));
}

#[test]
fn an_empty_line_at_the_end() {
    refused("AC\t1\n\n", Reason::Text.at(2));
    refused([lines(503), b"\n".to_vec()].concat(), Reason::Text.at(504));
}

#[test]
fn no_last_newline() {
    refused("AC\t1", Reason::Text.at(1));
    refused("AC\t1\nCA\t2", Reason::Text.at(2));
    refused("AC\t1,2\nCA\t1,2", Reason::Text.at(2));
    for cut in ["A", "AC", "AC\t", "AC\t1,", "AC\t1-", "AC\t1-2"] {
        refused(cut, Reason::Text.at(1));
        refused(format!("AC\t1\n{cut}"), Reason::Text.at(2));
    }
}

#[test]
fn carriage_returns_and_a_byte_order_mark() {
    refused("AC\t1\r\nCA\t2\r\n", Reason::Text.at(1));
    refused("AC\t1\nCA\t2\r\n", Reason::Text.at(2));
    refused("AC\t1\rCA\t2\r", Reason::Text.at(1));
    refused("\u{FEFF}AC\t1\n", Reason::Text.at(1));
    refused([b"\xFF\xFE", &b"AC\t1\n"[..]].concat(), Reason::Text.at(1));
}

/// The sound values at each of these places are stated; every other byte makes the text wrong.
#[test]
fn every_byte_at_every_place() {
    let sound = b"AC\t1\nCA\t2\n";
    let ones = |words: [u32; 2], places: [u16; 2]| {
        let entry = |i: usize| (words[i], places[i], NO_PLACE);
        card(Kind::Pair, 2, &[entry(0), entry(1)])
    };
    for byte in 0..=255 {
        let code = b"ACGT".iter().position(|&letter| letter == byte);
        for at in 0..sound.len() {
            let mut list = sound.to_vec();
            list[at] = byte;
            let line = 1 + at / 5;
            match (at, byte) {
                (0 | 1 | 5 | 6, _) if code.is_some() => {
                    let mut words = [1, 4];
                    let shift = [2, 0][at % 5];
                    let others = words[line - 1] & !(3 << shift);
                    words[line - 1] = others | (code.unwrap_or(0) as u32) << shift;
                    means(list, &ones(words, [0, 1]));
                }
                (2 | 7, b'\t') | (4 | 9, b'\n') => means(list, &ones([1, 4], [0, 1])),
                (3 | 8, b'1' | b'2') => {
                    let mut places = [0, 1];
                    places[line - 1] = u16::from(byte - b'1');
                    means(list, &ones([1, 4], places));
                }
                (3 | 8, b'0') => refused(list, Reason::Zero.at(line)),
                // Two entries have no place 2.
                (3 | 8, b'3'..=b'9') => refused(list, Reason::Places.at(line - 1)),
                _ => refused(list, Reason::Text.at(line)),
            }
        }
    }
}
