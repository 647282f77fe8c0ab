//! Letters: 21 with the number of letters before.

use super::{letters_in_number, not_read, not_written, record_of, Reason};

#[test]
fn no_letter_at_all() {
    not_written("n", "", Reason::Letter.at(0));
    for record in [">n\n", ">n\n\n", ">n\n\n\n", ">n\n\n\n\n\n\n"] {
        not_read(record, Reason::Letter.at(0));
    }
    not_read([b">n\n", &[b'\n'; 700][..]].concat(), Reason::Letter.at(0));
}

#[test]
fn the_letters_before_it_are_counted_and_no_newline() {
    for number in [1, 2, 59, 60, 61, 119, 120, 121, 515] {
        let letters = letters_in_number(number);
        for at in [0, 1, 58, 59, 60, 61, 119, 120, 514, number - 1] {
            if at < number {
                let mut letters = letters.clone();
                letters[at] = b'N';
                not_written("n", &letters, Reason::Letter.at(at));
                not_read(record_of(b"n", &letters), Reason::Letter.at(at));
            }
        }
    }
}

#[test]
fn the_first_of_several() {
    not_written("n", "AxCy", Reason::Letter.at(1));
    not_read(">n\nAxCy\n", Reason::Letter.at(1));
    not_read(">n\n\nA\nC\nxG\ny\n", Reason::Letter.at(2));
}

#[test]
fn what_is_taken_for_a_letter_elsewhere() {
    for letters in ["ACgT", "ACNT", "AC T", "AC-T", "AC*T", "ACUT", "AC\rT"] {
        not_written("n", letters, Reason::Letter.at(2));
        not_read(format!(">n\n{letters}\n"), Reason::Letter.at(2));
    }
    not_written("n", "ACAGA\n", Reason::Letter.at(5));
    not_read(">n\nACAGA\r\n", Reason::Letter.at(5));
    not_read(">n\nACAGA\n>m\nACAGA\n", Reason::Letter.at(5));
    not_read(">n\n>m\nACAGA\n", Reason::Letter.at(0));
}
