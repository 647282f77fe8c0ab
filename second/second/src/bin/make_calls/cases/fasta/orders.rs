//! Several faults at once: 20, 21, 22, 12, each over the whole record.

use crate::cases::Cases;
use crate::record::LONGEST_PART;

/// First lines: a sound one, and others.
const HEADS: [(&str, bool); 5] = [
    (">name\n", true),
    (">\n", false),
    (">a name\n", false),
    ("name\n", false),
    (">name\r\n", false),
];
/// Bodies, each with whether its letters are sound and the letters before the first that is not, and whether its lines are.
const BODIES: [(&str, Option<usize>, bool); 9] = [
    ("ACGT\n", None, true),
    ("ACGT", None, false),
    ("A\nCGT\n", None, false),
    ("\nACGT\n", None, false),
    ("A\nCx\n", Some(2), false),
    ("ACGx\n", Some(3), true),
    ("\n\nx", Some(0), false),
    ("\n", Some(0), false),
    ("", Some(0), false),
];

impl Cases {
    /// Every head with every body, in rooms that are enough, and too short for either part and for both.
    pub(super) fn faults_at_once(&mut self) {
        for (head, is_name) in HEADS {
            for (body, other, is_in_lines) in BODIES {
                let record = format!("{head}{body}");
                for rooms in [[4, 4], [3, 4], [4, 3], [0, 0]] {
                    let wanted = match (is_name, other, is_in_lines) {
                        (false, ..) => Err((20, 0)),
                        (true, Some(before), _) => Err((21, before)),
                        (true, None, false) => Err((22, 0)),
                        (true, None, true) if rooms != [4, 4] => Err((12, 0)),
                        (true, None, true) => Ok([4, 4]),
                    };
                    assert_eq!(self.read_in(record.as_bytes(), rooms), wanted);
                }
            }
        }
        self.faults_at_once_in_parts();
    }

    /// Names and letters, sound or not, with room and without it.
    fn faults_at_once_in_parts(&mut self) {
        let long = "n".repeat(41);
        for name in ["name", "", "a name", &long] {
            for (letters, other) in [("ACGT", None), ("ACxT", Some(2)), ("", Some(0))] {
                for room in [LONGEST_PART, 11, 10, 0] {
                    let wanted = match (name, other) {
                        ("name", None) if room < 11 => Err((12, 0)),
                        ("name", None) => Ok(11),
                        ("name", Some(before)) => Err((21, before)),
                        _ => Err((20, 0)),
                    };
                    let answer = self.write_in(name.as_bytes(), letters.as_bytes(), room);
                    assert_eq!(answer, wanted);
                }
            }
        }
    }
}
