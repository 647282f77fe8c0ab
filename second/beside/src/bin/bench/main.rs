//! Times the compiled library beside the second implementation, its counts and what it settles beside its
//! builds, its walk, and reading and writing, beside plain C, and, on x86-64, the program `build` beside the
//! program `report` of `second`: one table of ratios.

mod counting;
mod fasta;
mod listing;
mod pairing;
mod reading;
mod running;
mod settling;
mod timing;
mod walking;

use std::process::ExitCode;

use second::cards::Random;

use timing::{header, line};

/// The seed of the cards' entries.
const SEED: u64 = 1;

/// Times everything, and says where two sides differ, if they do.
fn run() -> Result<(), String> {
    let programs = running::programs()?;
    let mut random = Random::new(SEED);
    let cards = reading::samples(&mut random);
    let pairs = pairing::samples(&mut random);
    let walks = walking::samples(&mut random);
    let narrow = settling::samples(&mut random);
    let runs = running::samples(&mut random);
    let listed = listing::samples(&mut random);
    let records = fasta::samples(&mut random);

    let mut operations = reading::operations(&cards)?;
    operations.extend(pairing::operations(&pairs)?);
    operations.extend(counting::operations(&pairs)?);
    operations.extend(walking::operations(&walks)?);
    operations.extend(settling::operations(&narrow)?);
    operations.extend(listing::operations(&listed)?);
    operations.extend(fasta::operations(&records)?);
    // The program is x86-64 code: elsewhere an emulator's time would be set beside the processor's own.
    if cfg!(target_arch = "x86_64") {
        operations.extend(running::operations(&programs, &runs)?);
    }
    println!("{}", header());
    for operation in &mut operations {
        println!("{}", line(operation));
    }
    Ok(())
}

fn main() -> ExitCode {
    match run() {
        Ok(()) => ExitCode::SUCCESS,
        Err(what) => {
            eprintln!("bench: {what}");
            ExitCode::FAILURE
        }
    }
}
