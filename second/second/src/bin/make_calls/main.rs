//! Writes stored calls: records of cards, lists and names with letters, and the lines for numbers of builds, for what is settled, for lists as
//! texts and for FASTA records.
//!
//! The README describes both files. The same program always writes the same
//! bytes: everything is drawn from one fixed seed.

mod cases;
mod record;

use std::path::Path;
use std::process::ExitCode;

use cases::Cases;
use record::Record;

/// The seed of everything that is drawn.
const SEED: u64 = 20_250_202;

fn main() -> ExitCode {
    let arguments: Vec<String> = std::env::args().skip(1).collect();
    let [folder] = arguments.as_slice() else {
        eprintln!("usage: make_calls OUTDIR");
        return ExitCode::from(2);
    };
    let record = Cases::all(SEED);
    if let Err(error) = write(&record, Path::new(folder)) {
        eprintln!("{folder}: {error}");
        return ExitCode::FAILURE;
    }
    println!("{}", record.summary());
    ExitCode::SUCCESS
}

/// Writes the two files of the calls, making the folder where there is none.
fn write(record: &Record, folder: &Path) -> std::io::Result<()> {
    std::fs::create_dir_all(folder)?;
    std::fs::write(folder.join("stdin"), record.stdin())?;
    std::fs::write(folder.join("stdout"), record.stdout())
}
