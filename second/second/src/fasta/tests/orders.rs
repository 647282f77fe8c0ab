//! Several faults at once: 20, 21, 22, 12, each over the whole record.

use super::{not_read, not_written, Reason};

// Each is held to at any room, none among them, so that 12 comes last.

#[test]
fn the_name_first() {
    for name in ["", "a build", "n\r"] {
        for letters in ["", "x", "A"] {
            not_written(name, letters, Reason::Name.at(0));
        }
        for body in ["", "\n", "x\n", "A", "A\n\n", "A\nCx\n"] {
            not_read(format!(">{name}\n{body}"), Reason::Name.at(0));
        }
    }
    not_read("n\nA\nCx\n", Reason::Name.at(0));
}

#[test]
fn a_letter_before_a_line() {
    not_read(">n\nA\nCx\n", Reason::Letter.at(2));
    not_read(">n\n\nx\n", Reason::Letter.at(0));
    not_read(">n\nA\n\nx", Reason::Letter.at(1));
    not_read(">n\nAx", Reason::Letter.at(1));
    let long = "A".repeat(200);
    not_read(format!(">n\n{long}x"), Reason::Letter.at(200));
    not_read(format!(">n\n{long}\n{long}\n>"), Reason::Letter.at(400));
}

#[test]
fn a_line_before_the_room() {
    for body in ["A\nC\n", "A", "\nA\n"] {
        not_read(format!(">n\n{body}"), Reason::Line.at(0));
    }
}
