//! Writes the list of the card that standard input is, or says on standard error why there is none.

use std::io::{self, Read, Write};

use second::report::list_of_card;

fn main() -> io::Result<()> {
    let mut card = Vec::new();
    io::stdin().lock().read_to_end(&mut card)?;
    match list_of_card(&card) {
        Ok(list) => io::stdout().lock().write_all(&list),
        Err(line) => io::stderr().lock().write_all(line.as_bytes()),
    }
}
