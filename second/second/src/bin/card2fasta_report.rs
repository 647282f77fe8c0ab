//! Writes the FASTA record of the one build of the card that standard input is, or says on standard error why there is none.
//!
//! `card2fasta_report NAME` takes one argument; with none, or with more, it says so and reads nothing.

use std::ffi::OsString;
use std::io::{self, Read, Write};
use std::os::unix::ffi::OsStrExt;

use second::report::fasta_of_card;

fn main() -> io::Result<()> {
    let arguments: Vec<OsString> = std::env::args_os().skip(1).collect();
    let [name] = arguments.as_slice() else {
        eprintln!("usage: card2fasta_report NAME <CARD");
        return Ok(());
    };
    let mut card = Vec::new();
    io::stdin().lock().read_to_end(&mut card)?;
    match fasta_of_card(&card, name.as_bytes()) {
        Ok(record) => io::stdout().lock().write_all(&record),
        Err(line) => io::stderr().lock().write_all(line.as_bytes()),
    }
}
