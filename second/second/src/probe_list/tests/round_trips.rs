//! Cards that are exported and imported again, and cards that are refused.

use std::fs;
use std::path::{Path, PathBuf};

use super::{export, exported, gives, import, means, AMPLE, BEFORE};
use crate::cards::{any_card, any_sound_card, Draft, Random};
use crate::examples::s1;
use crate::profile::Kind;
use crate::reader;
use crate::tables::tables;

/// Holds an admitted card to itself, by way of its list.
fn hold(card: &[u8]) {
    let mut list = vec![BEFORE; AMPLE];
    let length = export(card, &mut list).expect("an admitted card");
    means(&list[..length], card);
    gives(card, &list[..length]);
}

/// The sample cards, which lie beside the second implementation.
fn samples() -> Vec<PathBuf> {
    let folder = Path::new(env!("CARGO_MANIFEST_DIR")).join("../../samples");
    let files = fs::read_dir(folder).expect("the sample cards");
    let paths = files.map(|file| file.expect("a file").path());
    let mut cards: Vec<PathBuf> = paths
        .filter(|path| path.extension().is_some_and(|end| end == "card"))
        .collect();
    cards.sort();
    cards
}

#[test]
fn the_s1_card() {
    gives(&s1(), "AC\t1-3\nCA\t2-4\nAG\t1-3\nGA\t2-4\n");
    means("AC\t1-3\nCA\t2-4\nAG\t1-3\nGA\t2-4\n", &s1());
}

#[test]
fn the_twelve_tables() {
    for table in tables() {
        hold(&table.lists.card().expect("a sound table"));
    }
}

#[test]
fn every_sample_card_that_is_admitted() {
    let mut came = 0;
    for path in samples() {
        let card = fs::read(&path).expect("a sample card");
        match reader::admit(&card) {
            Ok(_) => {
                hold(&card);
                came += 1;
            }
            Err(refusal) => {
                let answer = (Err(refusal), vec![BEFORE; AMPLE]);
                assert_eq!(exported(&card, AMPLE), answer, "{}", path.display());
            }
        }
    }
    assert!(came > 20, "{came} sample cards");
}

#[test]
fn cards_of_every_size() {
    let mut random = Random::new(41);
    for kind in [Kind::Pair, Kind::Span] {
        for l in 2..=12 {
            for m in [1, 2, 9, 10, 11, 62, 63, 64, 99, 100, 101, 503, 504] {
                hold(&Draft::sound(&mut random, kind, l, m).lay_out());
            }
        }
    }
    for _ in 0..200 {
        hold(&any_sound_card(&mut random));
    }
}

/// Whatever the reader refuses is refused in the same way at any room, and nothing is touched.
#[test]
fn every_refusal_of_the_reader() {
    let mut random = Random::new(42);
    let mut came = [0; 12];
    for _ in 0..3000 {
        let card = any_card(&mut random);
        if let Err(refusal) = reader::admit(&card) {
            came[usize::from(refusal.number())] += 1;
            for room in [0, AMPLE] {
                let answer = (Err(refusal), vec![BEFORE; room]);
                assert_eq!(exported(&card, room), answer);
            }
        }
    }
    assert!(came[1..].iter().all(|&times| times > 0), "{came:?}");
}

/// The longest line has the longest word and two numbers of three digits.
#[test]
fn the_longest_list() {
    let mut draft = Draft::sound(&mut Random::new(43), Kind::Span, 12, 504);
    for entry in &mut draft.entries {
        (entry.one, entry.two) = (499, 503);
    }
    let card = draft.lay_out();
    let (answer, _) = exported(&card, AMPLE);
    assert_eq!(answer, Ok(504 * 21));
    let mut again = vec![0; card.len()];
    let (_, list) = exported(&card, 504 * 21);
    assert_eq!(import(&list, &mut again), Ok(card.len()));
    assert_eq!(again, card);
}
