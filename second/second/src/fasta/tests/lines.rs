//! Lines: 22 at 0.

use super::{letters_in_number, means, not_read, record_of, Reason};

/// The refusal of a line.
const LINE: super::Refusal = super::Refusal {
    reason: Reason::Line,
    place: 0,
};

/// The record of these lines, each ended by a newline.
fn in_lines(lines: &[&[u8]]) -> Vec<u8> {
    [b">n\n", &lines.join(&b'\n')[..], b"\n"].concat()
}

#[test]
fn a_break_one_early_or_one_late() {
    for number in [60, 61, 62, 119, 120, 121, 515] {
        let letters = letters_in_number(number);
        for end in [59, 61] {
            if end < number {
                let (start, rest) = letters.split_at(end);
                not_read(in_lines(&[start, rest]), LINE);
                let rest: Vec<&[u8]> = rest.chunks(60).collect();
                not_read(in_lines(&[&[start][..], &rest].concat()), LINE);
            }
        }
    }
}

#[test]
fn the_last_line_may_be_shorter_and_no_other() {
    let letters = letters_in_number(180);
    for end in 1..60 {
        let (line, rest) = letters[..60].split_at(end);
        not_read(in_lines(&[line, rest]), LINE);
        not_read(in_lines(&[&letters[60..120], line, rest]), LINE);
        let two = [&letters[60..120], line].concat();
        means("n", &two, in_lines(&[&letters[60..120], line]));
    }
}

#[test]
fn a_line_of_61_letters_and_more() {
    for number in [61, 62, 70, 80, 120, 121, 515] {
        not_read(in_lines(&[&letters_in_number(number)]), LINE);
    }
}

#[test]
fn an_empty_line_anywhere() {
    let letters = letters_in_number(120);
    let (one, two) = letters.split_at(60);
    not_read(in_lines(&[b"", b"A"]), LINE);
    not_read(in_lines(&[b"A", b""]), LINE);
    not_read(in_lines(&[b"A", b"", b""]), LINE);
    for lines in [
        [b"", one, two],
        [one, b"", two],
        [one, two, b""],
        [one, b"", b"A"],
        [one, b"A", b""],
    ] {
        not_read(in_lines(&lines), LINE);
    }
    // As many bytes as a full line has, all of which but the first are breaks.
    not_read([b">n\nA", &[b'\n'; 60][..]].concat(), LINE);
}

#[test]
fn no_last_newline() {
    for number in [1, 2, 59, 60, 61, 119, 120, 121, 515] {
        let mut record = record_of(b"n", &letters_in_number(number));
        assert_eq!(record.pop(), Some(b'\n'));
        not_read(record, LINE);
    }
}

#[test]
fn nothing_may_follow() {
    not_read(">n\nA\n\n", LINE);
    not_read(">n\nA\nA\n", LINE);
    not_read(">n\nA\n ", Reason::Letter.at(1));
}
