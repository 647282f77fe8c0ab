//! Writes the card of the list that standard input is, or says on standard error why there is none.

use std::io::{self, Read, Write};

use second::report::card_of_list;

fn main() -> io::Result<()> {
    let mut list = Vec::new();
    io::stdin().lock().read_to_end(&mut list)?;
    match card_of_list(&list) {
        Ok(card) => io::stdout().lock().write_all(&card),
        Err(line) => io::stderr().lock().write_all(line.as_bytes()),
    }
}
