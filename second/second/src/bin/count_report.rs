//! Prints how many builds the pair card has that standard input is.

use std::io::{self, Read, Write};

use second::report::count_line;

fn main() -> io::Result<()> {
    let mut card = Vec::new();
    io::stdin().lock().read_to_end(&mut card)?;
    io::stdout().lock().write_all(count_line(&card).as_bytes())
}
