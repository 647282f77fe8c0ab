//! Tests of records that are drawn.

use super::*;
use crate::fasta::{read, write};

#[test]
fn the_records_of_sound_parts_are_written_and_read() {
    let mut random = Random::new(1);
    for _ in 0..300 {
        let name = b"a-build";
        let letters = any_letters(&mut random);
        let record = record_of(name, &letters);
        let mut out = vec![0; record.len()];
        assert_eq!(write(name, &letters, &mut out), Ok(record.len()));
        assert_eq!(out, record);
        let (mut to_name, mut to_letters) = ([0; 7], vec![0; letters.len()]);
        let parts = read(&record, &mut to_name, &mut to_letters).expect("a sound record");
        assert_eq!((parts.name, parts.letters), (7, letters.len()));
        assert_eq!((&to_name, to_letters), (name, letters));
    }
}

#[test]
fn what_is_drawn_brings_every_answer() {
    let mut random = Random::new(2);
    let [mut written, mut whole, mut damaged] = [[0; 23]; 3];
    for _ in 0..4000 {
        let (name, letters) = (any_name(&mut random), any_bytes_for_letters(&mut random));
        let answer = write(&name, &letters, &mut [0; 500]);
        written[answer.map_or_else(|refusal| usize::from(refusal.number()), |_| 0)] += 1;
        let mut record = any_record(&mut random);
        for came in [&mut whole, &mut damaged] {
            let answer = read(&record, &mut [0; 39], &mut [0; 500]);
            came[answer.map_or_else(|refusal| usize::from(refusal.number()), |_| 0)] += 1;
            damage(&mut random, &mut record);
        }
    }
    for number in [0, 12, 20, 21] {
        assert!(written[number] > 20, "{number} of {written:?}");
    }
    for number in [0, 12, 20] {
        assert!(whole[number] > 20, "{number} of {whole:?}");
    }
    for number in [0, 12, 20, 21, 22] {
        assert!(damaged[number] > 20, "{number} of {damaged:?}");
    }
}
