//! Several faults at once: the lowest line first, and in order within a line.

use super::{lines, refused};
use crate::refusal::Reason;

/// Second lines after `AC 1,2`, each with the reason that comes of it; of two faults in one line the first in order comes.
const SECOND: [(&str, Reason); 15] = [
    ("AC\t3-0x\n", Reason::Text),
    ("ACG\t3-0\r\n", Reason::Text),
    ("ACG\t0-00\n", Reason::Text),
    ("ACg\t1,2\n", Reason::Text),
    ("AC\t1-2,0\n", Reason::Text),
    ("AC\t1-2\n", Reason::Mixed),
    ("ACG\t1-2\n", Reason::Mixed),
    ("AC\t0-2\n", Reason::Mixed),
    ("A\t1-0\n", Reason::Mixed),
    ("ACG\t1,2\n", Reason::Uneven),
    ("ACG\t0,2\n", Reason::Uneven),
    ("A\t0\n", Reason::Uneven),
    ("AC\t0\n", Reason::Zero),
    ("AC\t0,2\n", Reason::Zero),
    ("AC\t2,0\n", Reason::Zero),
];

#[test]
fn in_order_within_a_line() {
    for (line, reason) in SECOND {
        refused(format!("AC\t1,2\n{line}"), reason.at(2));
    }
}

#[test]
fn without_a_last_newline_it_is_the_text() {
    for (line, _) in SECOND {
        let cut = line.trim_end_matches('\n');
        refused(format!("AC\t1,2\n{cut}"), Reason::Text.at(2));
    }
}

#[test]
fn the_lowest_line_first() {
    for (line, reason) in SECOND {
        for (later, _) in SECOND {
            refused(format!("AC\t1,2\n{line}{later}"), reason.at(2));
            let cut = later.trim_end_matches('\n');
            refused(format!("AC\t1,2\n{line}{cut}"), reason.at(2));
        }
        let list = [&b"AC\t1,2\n"[..], &lines(700), line.as_bytes()].concat();
        refused(list, reason.at(702));
    }
}

#[test]
fn the_text_before_the_rules_of_a_card() {
    // 6, 7 and 11 on earlier lines, or of the whole, come after the last line's text.
    let later = [
        ("A\t9\nA\t0\n", Reason::Zero),
        ("A\t9,1\nA\t1-2\n", Reason::Mixed),
        ("AC\t2,1\nACG\t1\n", Reason::Uneven),
        ("AC\t65535\nAC\t65536\n", Reason::Text),
    ];
    for (list, reason) in later {
        refused(list, reason.at(2));
    }
    let many = lines(600);
    refused([&many[..], b"AC\t0\n"].concat(), Reason::Zero.at(601));
    refused([&many[..], b"AC\t1"].concat(), Reason::Text.at(601));
    refused([&many[..], b"\n"].concat(), Reason::Text.at(601));
    let beyond = lines(70_000);
    refused([&beyond[..], b"A\t1\n"].concat(), Reason::Uneven.at(70_001));
}
