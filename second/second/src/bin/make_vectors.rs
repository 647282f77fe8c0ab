//! Writes stored vectors: records of operations, and the lines that they must give.
//!
//! The README describes both files. The same program always writes the same
//! bytes: everything is drawn from one fixed seed.

use std::path::Path;
use std::process::ExitCode;

use second::vectors::{self, Record};

fn main() -> ExitCode {
    let arguments: Vec<String> = std::env::args().skip(1).collect();
    let [folder] = arguments.as_slice() else {
        eprintln!("usage: make_vectors OUTDIR");
        return ExitCode::from(2);
    };
    let record = vectors::all();
    if let Err(error) = write(&record, Path::new(folder)) {
        eprintln!("{folder}: {error}");
        return ExitCode::FAILURE;
    }
    for (name, count) in record.counts() {
        println!("{name} {} of which {} refused", count.all, count.refused);
    }
    for (name, count) in record.verdicts() {
        println!("{name} {count}");
    }
    println!("total {}", record.total());
    println!("placements {}", record.placements());
    ExitCode::SUCCESS
}

/// Writes the two files of the vectors, making the folder where there is none.
fn write(record: &Record, folder: &Path) -> std::io::Result<()> {
    std::fs::create_dir_all(folder)?;
    std::fs::write(folder.join("stdin"), record.stdin())?;
    std::fs::write(folder.join("stdout"), record.stdout())
}
