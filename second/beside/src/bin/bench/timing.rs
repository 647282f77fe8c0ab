//! Medians of the times of two sides.
//!
//! The two take turns in rounds within one run, so that both meet the same
//! moods of the machine. Rounds are short and many, so that those in which
//! another program has the processor are few and far from the middle.

use std::time::{Duration, Instant};

/// The least time that a round is to last.
const ROUND: Duration = Duration::from_micros(300);
/// The rounds that each side takes, where no call is much longer than that.
pub const ROUNDS: usize = 301;

/// What the library is set beside: `second`, the same with the bytes of a call, plain C, or its own builds.
#[derive(Clone, Copy, PartialEq, Eq)]
pub enum Beside {
    Second,
    SecondPerBytes(usize),
    C,
    Build,
}

/// One operation: its name, and calls on each side.
pub struct Operation<'a> {
    /// What is called.
    pub name: String,
    /// What the library is set beside.
    pub beside: Beside,
    /// The rounds that each side takes, of which there is an odd number.
    pub rounds: usize,
    /// The calls that each of the two makes when it is run once.
    pub calls: usize,
    /// Calls of the library.
    pub library: Box<dyn FnMut() + 'a>,
    /// The same calls on the other side.
    pub other: Box<dyn FnMut() + 'a>,
}

/// The time that running this so many times takes.
fn time(run: &mut dyn FnMut(), times: u32) -> Duration {
    let start = Instant::now();
    for _ in 0..times {
        run();
    }
    start.elapsed()
}

/// The number of times that last at least one round.
fn times_per_round(run: &mut dyn FnMut()) -> u32 {
    let mut times = 1;
    while time(run, times) < ROUND {
        times *= 2;
    }
    times
}

/// The middle one of the times, of which there is an odd number.
fn median(mut times: Vec<f64>) -> f64 {
    times.sort_by(f64::total_cmp);
    times[times.len() / 2]
}

/// The medians of the nanoseconds per call, of the library and of the other side.
fn measure(operation: &mut Operation) -> (f64, f64) {
    let library_times = times_per_round(&mut operation.library);
    let other_times = times_per_round(&mut operation.other);
    let calls = operation.calls as f64;
    let per_call = |run: &mut dyn FnMut(), times: u32| {
        time(run, times).as_nanos() as f64 / f64::from(times) / calls
    };
    let mut library = Vec::with_capacity(operation.rounds);
    let mut other = Vec::with_capacity(operation.rounds);
    for round in 0..operation.rounds {
        // Each side goes first in every other round.
        if round % 2 == 0 {
            library.push(per_call(&mut operation.library, library_times));
            other.push(per_call(&mut operation.other, other_times));
        } else {
            other.push(per_call(&mut operation.other, other_times));
            library.push(per_call(&mut operation.library, library_times));
        }
    }
    (median(library), median(other))
}

/// The first line of the table.
pub fn header() -> String {
    columns("what", "library", "beside", "ratio", "of C's speed")
}

/// Times an operation and gives its line.
pub fn line(operation: &mut Operation) -> String {
    let (library, other) = measure(operation);
    let ratio = format!("{:.2}", library / other);
    let of_library = match operation.beside {
        Beside::SecondPerBytes(bytes) => speed(bytes, library),
        _ => shown(library),
    };
    // A speed beside C, where the ratio is one of times.
    let (of_other, of_c) = match operation.beside {
        Beside::Second => (shown(other), String::new()),
        Beside::SecondPerBytes(bytes) => (speed(bytes, other), String::new()),
        Beside::C => (
            format!("C {}", shown(other)),
            format!("{:.2}", other / library),
        ),
        Beside::Build => (format!("build {}", shown(other)), String::new()),
    };
    columns(&operation.name, &of_library, &of_other, &ratio, &of_c)
}

/// The columns of a line.
fn columns(what: &str, library: &str, other: &str, ratio: &str, speed: &str) -> String {
    let line = format!("{what:<46} {library:>10} {other:>15} {ratio:>7} {speed:>13}");
    line.trim_end().to_string()
}

/// A time in nanoseconds, in a unit that keeps it short.
fn shown(nanoseconds: f64) -> String {
    match nanoseconds {
        time if time < 1e3 => format!("{time:.1} ns"),
        time if time < 1e6 => format!("{:.2} us", time / 1e3),
        time => format!("{:.2} ms", time / 1e6),
    }
}

/// The speed at which so many bytes take these nanoseconds.
fn speed(bytes: usize, nanoseconds: f64) -> String {
    format!("{:.0} MB/s", bytes as f64 * 1e3 / nanoseconds)
}
