//! Names: 20.

use super::{means, not_read, not_written, Reason};

/// The refusal of a name.
const NAME: super::Refusal = super::Refusal {
    reason: Reason::Name,
    place: 0,
};

#[test]
fn from_1_to_40_characters() {
    for length in [1, 2, 39, 40] {
        let name = "n".repeat(length);
        means(&name, "A", format!(">{name}\nA\n"));
    }
    for length in [0, 41, 42, 300, 70_000] {
        let name = "n".repeat(length);
        not_written(&name, "A", NAME);
        not_read(format!(">{name}\nA\n"), NAME);
    }
}

#[test]
fn printable_and_without_a_space() {
    for byte in 0..=255 {
        for (before, after) in [("", ""), ("n", "n"), ("n", ""), ("", "n")] {
            let name = [before.as_bytes(), &[byte], after.as_bytes()].concat();
            let record = [b">", &name[..], b"\nA\n"].concat();
            if (33..=126).contains(&byte) {
                means(&name, "A", &record);
                continue;
            }
            not_written(&name, "A", NAME);
            match (byte, before) {
                // The name ends here, and its end is where letters should be.
                (b'\n', "n") if after == "n" => not_read(&record, Reason::Letter.at(0)),
                (b'\n', "n") => not_read(&record, Reason::Line.at(0)),
                _ => not_read(&record, NAME),
            }
        }
    }
}

#[test]
fn no_start_and_no_newline() {
    for record in ["", ">", ">n", ">nA", "n\nA\n", " >n\nA\n", "\n>n\nA\n"] {
        not_read(record, NAME);
    }
    for record in [";n\nA\n", "<n\nA\n", "A\n", "\n", "\u{FEFF}>n\nA\n"] {
        not_read(record, NAME);
    }
    not_read(format!(">{}", "A".repeat(700)), NAME);
}

#[test]
fn a_carriage_return_after_the_name() {
    not_read(">n\r\nA\r\n", NAME);
    not_read(">n\r\nA\n", NAME);
    not_read(">n\rA\r", NAME);
}
