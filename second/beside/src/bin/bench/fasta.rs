//! Writing FASTA records and reading them.

use std::hint::black_box;

use beside::{firmware, independent};
use second::cards::Random;
use second::fasta::{read, write};
use second::records::{letters_in_number, record_of};

use crate::timing::{Beside, Operation, ROUNDS};

/// The name of each record.
const NAME: &[u8] = b"a-build";

/// Letters and their record.
pub struct Sample {
    letters: Vec<u8>,
    record: Vec<u8>,
}

impl Sample {
    /// Says whether the two sides make the record of the letters, and the letters of the record.
    fn is_agreed_on(&self) -> bool {
        let Sample { letters, record } = self;
        let [mut by_library, mut by_second] = [0, 0].map(|byte| vec![byte; record.len()]);
        let is_written = firmware::write_fasta(NAME, letters, &mut by_library)
            == independent::write_fasta(NAME, letters, &mut by_second)
            && [&by_library, &by_second] == [record, record];
        let [mut by_library, mut by_second] =
            [0, 0].map(|byte| (NAME.to_vec(), vec![byte; letters.len()]));
        let is_read = firmware::read_fasta(record, &mut by_library.0, &mut by_library.1)
            == independent::read_fasta(record, &mut by_second.0, &mut by_second.1)
            && [&by_library.1, &by_second.1] == [letters, letters];
        is_written && is_read
    }
}

/// The letters that are timed: as many as the longest build has, and a megabyte of them.
pub fn samples(random: &mut Random) -> Vec<Sample> {
    let numbers = [515, 1_000_000].into_iter();
    let samples = numbers.map(|number| {
        let letters = letters_in_number(random, number);
        let record = record_of(NAME, &letters);
        Sample { letters, record }
    });
    samples.collect()
}

/// Writing and reading these records, where the two sides agree on them.
pub fn operations(samples: &[Sample]) -> Result<Vec<Operation<'_>>, String> {
    // A time means nothing where the two do not agree.
    if let Some(sample) = samples.iter().find(|sample| !sample.is_agreed_on()) {
        let number = sample.letters.len();
        return Err(format!("the two differ on a record of {number} letters"));
    }
    let writes = samples.iter().map(written);
    Ok(writes.chain(samples.iter().map(parted)).collect())
}

/// One call on each side, with the speed over the bytes of the record.
fn operation<'a>(
    what: &str,
    sample: &'a Sample,
    library: impl FnMut() + 'a,
    other: impl FnMut() + 'a,
) -> Operation<'a> {
    Operation {
        name: format!("{what} FASTA, {} letters", sample.letters.len()),
        beside: Beside::SecondPerBytes(sample.record.len()),
        rounds: ROUNDS,
        calls: 1,
        library: Box::new(library),
        other: Box::new(other),
    }
}

/// Writing the record into an output of its size.
fn written(sample: &Sample) -> Operation<'_> {
    let Sample { letters, record } = sample;
    let mut for_library = vec![0; record.len()];
    let mut for_second = for_library.clone();
    operation(
        "write",
        sample,
        move || {
            let out = black_box(&mut for_library);
            _ = black_box(firmware::write_fasta(NAME, black_box(letters), out));
        },
        move || {
            let out = black_box(&mut for_second);
            _ = black_box(write(NAME, black_box(letters), out));
        },
    )
}

/// Reading the record into outputs of the sizes of its name and letters.
fn parted(sample: &Sample) -> Operation<'_> {
    let Sample { letters, record } = sample;
    let mut for_library = (NAME.to_vec(), vec![0; letters.len()]);
    let mut for_second = for_library.clone();
    operation(
        "read",
        sample,
        move || {
            let (name, letters) = black_box(&mut for_library);
            _ = black_box(firmware::read_fasta(black_box(record), name, letters));
        },
        move || {
            let (name, letters) = black_box(&mut for_second);
            _ = black_box(read(black_box(record), name, letters));
        },
    )
}
