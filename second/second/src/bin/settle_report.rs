//! Prints what the program `settle` must print for the card that standard input is.

use std::io::{self, Read, Write};

use second::report::settled;

fn main() -> io::Result<()> {
    let mut card = Vec::new();
    io::stdin().lock().read_to_end(&mut card)?;
    io::stdout().lock().write_all(settled(&card).as_bytes())
}
