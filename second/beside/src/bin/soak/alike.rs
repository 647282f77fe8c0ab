//! Builds from span cards beside another call of the library, which must come to the same wherever the walk settles.

use std::fmt::Write;

use crate::building::Said;
use crate::tally::{never, SETTLED, VERDICTS};

/// How often each verdict came from a build that was set beside another call.
pub struct Alike {
    /// The name of the line that counts them.
    name: &'static str,
    /// What the other call and the build are called.
    sides: [&'static str; 2],
    /// So many of the first verdicts must come in a long run.
    wanted: usize,
    verdicts: [u64; VERDICTS.len()],
}

impl Alike {
    /// Nothing is counted yet.
    pub fn new(name: &'static str, sides: [&'static str; 2], wanted: usize) -> Alike {
        Alike {
            name,
            sides,
            wanted,
            verdicts: [0; VERDICTS.len()],
        }
    }

    /// Counts a build from a span card, and gives both sides where it is settled otherwise than by the other call.
    pub fn compare(&mut self, other: &Said, build: &Said) -> Option<String> {
        let (other, build) = (other.built(), build.built());
        // Nothing is refused here, so that there is a verdict.
        let verdict = build.0 - 1;
        self.verdicts[verdict] += 1;
        let differs = verdict < SETTLED && build != other;
        let [of_other, of_build] = self.sides;
        differs.then(|| {
            let (other, build) = (shown(other), shown(build));
            format!("from {of_other} {other}\nfrom {of_build} {build}")
        })
    }

    /// The line that counts them.
    pub fn line(&self) -> String {
        let name = self.name;
        let all: u64 = self.verdicts.iter().sum();
        let settled: u64 = self.verdicts[..SETTLED].iter().sum();
        let mut text = format!("{name} {all}: the same where settled {settled},");
        for (name, count) in VERDICTS.iter().zip(self.verdicts) {
            _ = write!(text, " {name} {count}");
        }
        text + "\n"
    }

    /// A verdict that never came and should have, if there is one.
    pub fn missing(&self) -> Option<String> {
        let name = never(&VERDICTS[..self.wanted], &self.verdicts)?;
        Some(format!("no build of {} was {name}", self.name))
    }
}

/// What was built: the verdict, the length and the letters.
fn shown((verdict, length, letters): (usize, usize, &[u8])) -> String {
    let letters = String::from_utf8_lossy(letters);
    format!("{} {length} {letters}", VERDICTS[verdict - 1])
}
