//! Prints what the program `build` must print for the card that standard input is.

use std::io::{self, Read, Write};

use second::report::report;

fn main() -> io::Result<()> {
    let mut card = Vec::new();
    io::stdin().lock().read_to_end(&mut card)?;
    io::stdout().lock().write_all(report(&card).as_bytes())
}
