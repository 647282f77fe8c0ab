//! Tests of what the programs print.

use super::*;
use crate::cards::put_right;
use crate::entry::Stored;
use crate::examples::{plain, s1};
use crate::known_counts::{copies, table};
use crate::lists::Lists;
use crate::tables::tables;

#[test]
fn the_s1_card() {
    assert_eq!(report(&s1()), "CARD span 2 4\nseveral ACAGA 8\n");
}

#[test]
fn the_twelve_tables() {
    let wanted = [
        "CARD pair 2 4\nseveral ACAGA 0\n",
        "CARD pair 2 4\nsole ACAGA 0\n",
        "CARD pair 2 4\nsole AGACA 0\n",
        "CARD pair 2 4\nnone 0\n",
        "CARD pair 2 2\nsole AAA 0\n",
        "CARD pair 2 1\nsole AC 0\n",
        "CARD pair 2 2\nnone 0\n",
        "CARD span 2 4\nseveral ACAGA 8\n",
        "CARD span 2 4\nsole ACAGA 4\n",
        "CARD span 2 4\nnone 2\n",
        "CARD span 2 3\nsole AAAA 3\n",
        "CARD span 2 2\nnone 0\n",
    ];
    for (table, lines) in tables().iter().zip(wanted) {
        let card = table.lists.card().expect("a sound table");
        assert_eq!(report(&card), lines, "{}", table.name);
    }
}

#[test]
fn what_is_no_card() {
    assert_eq!(report(&[]), "refused 1 0\n");
    assert_eq!(report(&s1()[..511]), "refused 1 0\n");
    assert_eq!(report(&[0; 512]), "refused 4 0\n");
    assert_eq!(report(&[255; 512]), "refused 2 0\n");
}

#[test]
fn bytes_after_the_card() {
    for bytes in [&b"\n"[..], &[0; 512], &s1()] {
        let card = [&s1(), bytes].concat();
        assert_eq!(report(&card), "refused 9 0\n");
    }
    assert_eq!(report(&s1()[..1023]), "refused 9 0\n");
}

#[test]
fn a_refusal_and_its_place() {
    let mut card = s1();
    card[520] = 16;
    assert_eq!(report(&card), "refused 2 1\n");
    put_right(&mut card, 1);
    assert_eq!(report(&card), "refused 10 1\n");
    card[520] = 15;
    card[526] = 4;
    put_right(&mut card, 1);
    assert_eq!(report(&card), "refused 11 1\n");
    let mut card = plain(Kind::Pair, 3, 64).lay_out();
    card[2 * 512 + 508] = 3;
    put_right(&mut card, 2);
    assert_eq!(report(&card), "refused 3 2\n");
}

/// The words of ACAGACAG over and over, which has very many builds but for the TT at its end.
fn without_an_end() -> Lists {
    let mut lists = Lists::empty(2, 2);
    for place in 0..60u16 {
        let word = [1, 4, 2, 8][usize::from(place) % 4];
        let (one, two) = (place.saturating_sub(3), (place + 4).min(60));
        lists.push(Stored { word, one, two });
    }
    // TT is due at the last place, and no word ends in T.
    let (word, one, two) = (15, 60, 60);
    lists.push(Stored { word, one, two });
    lists
}

#[test]
fn a_walk_beyond_the_budget_of_the_program() {
    let card = without_an_end().card().expect("sound lists");
    assert_eq!(report(&card), "CARD span 2 61\nunsettled 1000000\n");
}

#[test]
fn the_lines_of_settle() {
    let lines = [
        "CARD span 2 4\nseveral ACAGA 0\n",
        "CARD span 2 4\nsole ACAGA 0\n",
        "CARD span 2 4\nnone 0\n",
        "CARD span 2 3\nsole AAAA 0\n",
        "CARD span 2 2\nnone 0\n",
    ];
    let wanted = ["refused 5 0\n"; 7].into_iter().chain(lines);
    for (table, lines) in tables().iter().zip(wanted) {
        let card = table.lists.card().expect("a sound table");
        assert_eq!(settled(&card), lines, "{}", table.name);
    }
    assert_eq!(settled(&s1()[..511]), "refused 1 0\n");
    assert_eq!(settled(&[s1(), s1()].concat()), "refused 9 0\n");
    // The first entry has places 0 to 4, and is wider than 4.
    let wide = without_an_end().card().expect("sound lists");
    assert_eq!(settled(&wide), "refused 30 0\n");
}

#[test]
fn the_line_of_the_number_of_builds() {
    let wanted = [
        "builds 2^1\n",
        "builds 2^0\n",
        "builds 2^0\n",
        "builds 0\n",
        "builds 2^0\n",
        "builds 2^0\n",
        "builds 0\n",
    ];
    let lines = wanted.into_iter().chain(["refused 5 0\n"; 5]);
    for (table, line) in tables().iter().zip(lines) {
        let card = table.lists.card().expect("a sound table");
        assert_eq!(count_line(&card), line, "{}", table.name);
    }
    let full = copies(&table("P1"), 126).card().expect("sound lists");
    assert_eq!(count_line(&full), "builds 2^126\n");
    assert_eq!(count_line(&full[..511]), "refused 1 0\n");
    assert_eq!(count_line(&[&full, &b"\n"[..]].concat()), "refused 9 0\n");
    let mut card = full;
    card[8 * 512] = 16;
    put_right(&mut card, 8);
    assert_eq!(count_line(&card), "refused 10 441\n");
}

#[test]
fn the_card_of_a_list() {
    let list = b"AC\t1-3\nCA\t2-4\nAG\t1-3\nGA\t2-4\n";
    assert_eq!(card_of_list(list), Ok(s1()));
    assert_eq!(card_of_list(b""), Err("refused 23 1\n".to_string()));
    let mixed = b"AC\t1,2\nAC\t1-2\n";
    assert_eq!(card_of_list(mixed), Err("refused 24 2\n".to_string()));
    assert_eq!(card_of_list(b"AC\t2\n"), Err("refused 11 0\n".to_string()));
}

#[test]
fn the_longest_lists() {
    let full = b"AC\t1\n".repeat(504);
    assert_eq!(card_of_list(&full).map(|card| card.len()), Ok(4608));
    // The text of these is sound, but they have too many lines for a card.
    let lines = b"AC\t1\n".repeat(209_714);
    let longest = [&b"AC\t10\n"[..], &lines].concat();
    assert_eq!(longest.len(), 1_048_576);
    assert_eq!(card_of_list(&longest), Err("refused 7 0\n".to_string()));
    let more = Err("list2card: more than 1048576 bytes\n".to_string());
    let longer = [&b"AC\t100\n"[..], &lines].concat();
    assert_eq!(card_of_list(&longer), more);
    assert_eq!(card_of_list(&vec![0; 1_048_577]), more);
    let zeros = vec![0; 1_048_576];
    assert_eq!(card_of_list(&zeros), Err("refused 23 1\n".to_string()));
}

#[test]
fn the_list_of_a_card() {
    let list = b"AC\t1-3\nCA\t2-4\nAG\t1-3\nGA\t2-4\n".to_vec();
    assert_eq!(list_of_card(&s1()), Ok(list));
    assert_eq!(list_of_card(b""), Err("refused 1 0\n".to_string()));
    let mut longest = plain(Kind::Span, 12, 504);
    for entry in &mut longest.entries {
        (entry.one, entry.two) = (503, 503);
    }
    let lines = b"AAAAAAAAAAAA\t504-504\n".repeat(504);
    assert_eq!(list_of_card(&longest.lay_out()), Ok(lines));
}

#[test]
fn the_record_of_a_card() {
    let wanted = [
        Err("several ACAGA 0\n"),
        Ok(">a-build\nACAGA\n"),
        Ok(">a-build\nAGACA\n"),
        Err("none 0\n"),
        Ok(">a-build\nAAA\n"),
        Ok(">a-build\nAC\n"),
        Err("none 0\n"),
        Err("several ACAGA 8\n"),
        Ok(">a-build\nACAGA\n"),
        Err("none 2\n"),
        Ok(">a-build\nAAAA\n"),
        Err("none 0\n"),
    ];
    for (table, wanted) in tables().iter().zip(wanted) {
        let card = table.lists.card().expect("a sound table");
        let record = wanted.map(|record| record.as_bytes().to_vec());
        let record = record.map_err(str::to_string);
        assert_eq!(fasta_of_card(&card, b"a-build"), record, "{}", table.name);
    }
    let unsettled = without_an_end().card().expect("sound lists");
    let line = Err("unsettled 1000000\n".to_string());
    assert_eq!(fasta_of_card(&unsettled, b"a-build"), line);
}

#[test]
fn the_longest_record_of_a_card() {
    // Entry i alone may stand at place i, so that the words of A's in number are the one build.
    let mut draft = plain(Kind::Span, 12, 504);
    for (place, entry) in (0..).zip(&mut draft.entries) {
        (entry.one, entry.two) = (place, place);
    }
    let name = [b'n'; 40];
    let line = [b'A'; 60];
    let lines = [&line[..]; 8].join(&b'\n');
    let last = [b'A'; 515 - 480];
    let record = [b">", &name[..], b"\n", &lines, b"\n", &last, b"\n"].concat();
    assert_eq!(fasta_of_card(&draft.lay_out(), &name), Ok(record));
}

#[test]
fn no_record_of_a_card() {
    let lists = table("P5");
    let sole = lists.card().expect("a sound table");
    let refused = |line: &str| Err(line.to_string());
    for name in [&b""[..], b"a build", b"n\n", &[b'n'; 41], b"\xC3\xA9"] {
        assert_eq!(fasta_of_card(&sole, name), refused("refused 20 0\n"));
        // The card is tested first, and so is its verdict.
        assert_eq!(fasta_of_card(&sole[..511], name), refused("refused 1 0\n"));
        assert_eq!(fasta_of_card(&s1(), name), refused("several ACAGA 8\n"));
    }
    let longer = [&sole[..], b"\n"].concat();
    assert_eq!(fasta_of_card(&longer, b"n"), refused("refused 9 0\n"));
}
