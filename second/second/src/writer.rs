//! Writing a card from three lists.

use crate::block::{self, Block};
use crate::entry::Stored;
use crate::given::Given;
use crate::numbers::{
    BLOCK, COUNT, ENTRIES_PER_BLOCK, ENTRY, FORM, HEAD_SPARE, KIND, THE_FORM, WORD_LENGTH,
};
use crate::profile::{Kind, Profile};
use crate::refusal::{Reason, Refusal};

/// Writes the card of this kind and l whose entries stand in three lists, and answers its length.
///
/// The card has as many entries as the lists, and stands at the start of the
/// output. Tested are 5, 6, 13 where the lists differ in length, 7, then the
/// entries in turn, 10 before 11, and 12 last. A refusal changes no byte, and
/// the bytes after the card are never changed.
pub fn write(
    kind: usize,
    l: usize,
    words: &[u32],
    ones: &[u16],
    twos: &[u16],
    out: &mut [u8],
) -> Result<usize, Refusal> {
    let kind = Kind::of_number(kind)?;
    let given = Given { words, ones, twos };
    let profile = given.profile(kind, l)?;
    let card = out.get_mut(..profile.size()).ok_or(Reason::Room.at(0))?;
    put_card(&profile, given.entries(), card);
    Ok(card.len())
}

/// Stores all of a card that was tested, in bytes that are as many as its size.
fn put_card(profile: &Profile, mut entries: impl Iterator<Item = Stored>, card: &mut [u8]) {
    card.fill(0);
    let (blocks, _rest) = card.as_chunks_mut::<BLOCK>();
    put_head(profile, &mut blocks[0]);
    for block in &mut blocks[1..] {
        // The slots come first, so that no entry is taken where they have run out.
        for (slot, stored) in slots(block).iter_mut().zip(entries.by_ref()) {
            *slot = stored.to_bytes();
        }
    }
    for (k, block) in blocks.iter_mut().enumerate() {
        // A card has far fewer blocks than an index of two bytes can count.
        block::seal(block, k as u16);
    }
}

/// Stores the fields of block 0, whose bytes are zero.
fn put_head(profile: &Profile, head: &mut Block) {
    head[FORM] = THE_FORM;
    head[KIND] = profile.kind.number();
    head[WORD_LENGTH] = profile.l;
    head[COUNT..HEAD_SPARE].copy_from_slice(&profile.m.to_le_bytes());
}

/// The entry slots of a later block.
fn slots(block: &mut Block) -> &mut [[u8; ENTRY]] {
    let (slots, _rest) = block[..ENTRIES_PER_BLOCK * ENTRY].as_chunks_mut::<ENTRY>();
    slots
}

#[cfg(test)]
mod tests {
    use super::*;
    use crate::cards::{any_sound_card, Random};
    use crate::examples::{plain, s1};
    use crate::lists::{any_lists, any_sound_lists, Lists};
    use crate::reader;

    /// What every byte of an output holds before the call.
    const BEFORE: u8 = 165;

    /// What these lists get with this room, and the output afterwards.
    fn written(lists: &Lists, room: usize) -> (Result<usize, Refusal>, Vec<u8>) {
        let mut out = vec![BEFORE; room];
        let answer = lists.write(&mut out);
        (answer, out)
    }

    /// What these lists get with ample room and with none; a refusal must change nothing.
    fn refusal(lists: &Lists) -> Option<Refusal> {
        let (answer, out) = written(lists, 12 * BLOCK);
        let (roomless, _) = written(lists, 0);
        match answer {
            Ok(_) => assert_eq!(roomless, Err(Reason::Room.at(0))),
            Err(_) => assert_eq!((out, roomless), (vec![BEFORE; 12 * BLOCK], answer)),
        }
        answer.err()
    }

    /// Lists whose every entry has word 0 and place 0 alone.
    fn lists(kind: Kind, l: u8, m: u16) -> Lists {
        Lists::of_draft(&plain(kind, l, m))
    }

    #[test]
    fn the_s1_card_is_written() {
        let lists = Lists {
            kind: 2,
            l: 2,
            words: vec![1, 4, 2, 8],
            ones: vec![0, 1, 0, 1],
            twos: vec![2, 3, 2, 3],
        };
        assert_eq!(written(&lists, 1024), (Ok(1024), s1()));
        // Later bytes are untouched, and so is an output that is one byte short.
        let (answer, out) = written(&lists, 1027);
        assert_eq!(answer, Ok(1024));
        assert_eq!(out, [s1(), vec![BEFORE; 3]].concat());
        let short = (Err(Reason::Room.at(0)), vec![BEFORE; 1023]);
        assert_eq!(written(&lists, 1023), short);
    }

    #[test]
    fn kind_and_l_are_taken_whole() {
        for (right, kind) in [(1, Kind::Pair), (2, Kind::Span)] {
            let mut lists = lists(kind, 2, 1);
            for wrong in [0, 3, 256 + right, (1 << 32) + right, (1 << 63) + right] {
                lists.kind = wrong;
                assert_eq!(refusal(&lists), Some(Reason::Kind.at(0)));
            }
            lists.kind = right;
            for l in [0, 1, 13, 255, 258, 268, (1 << 32) + 2, (1 << 63) + 12] {
                lists.l = l;
                assert_eq!(refusal(&lists), Some(Reason::WordLength.at(0)));
            }
            for l in 2..=12 {
                lists.l = l;
                assert_eq!(refusal(&lists), None);
            }
        }
    }

    #[test]
    fn the_lengths_of_the_lists() {
        for m in [1, 62, 63, 64, 126, 127, 503, 504] {
            let lists = lists(Kind::Pair, 3, m);
            let size = 512 * (1 + usize::from(m).div_ceil(63));
            assert_eq!(written(&lists, size).0, Ok(size));
            assert_eq!(written(&lists, size - 1).0, Err(Reason::Room.at(0)));
        }
        for m in [0, 505, 600, 65_535] {
            let refused = refusal(&lists(Kind::Span, 3, m));
            assert_eq!(refused, Some(Reason::Count.at(0)));
        }
        let mut long = lists(Kind::Span, 3, 65_535);
        for m in [65_536, 65_537, 65_536 + 504] {
            (long.words, long.ones, long.twos) = (vec![0; m], vec![0; m], vec![0; m]);
            assert_eq!(refusal(&long), Some(Reason::Count.at(0)));
        }
        for lengths in [[5, 5, 4], [5, 4, 5], [4, 5, 5], [0, 1, 1], [600, 600, 601]] {
            let [a, b, c] = lengths;
            (long.words, long.ones, long.twos) = (vec![0; a], vec![0; b], vec![0; c]);
            assert_eq!(refusal(&long), Some(Reason::Lists.at(0)));
        }
    }

    #[test]
    fn entries_in_turn() {
        let mut lists = lists(Kind::Span, 3, 127);
        let mut spoil = |i: usize, word, two| {
            (lists.words[i], lists.twos[i]) = (word, two);
            refusal(&lists)
        };
        assert_eq!(spoil(126, 63, 7), None);
        assert_eq!(spoil(126, 63, 8), Some(Reason::Places.at(126)));
        assert_eq!(spoil(126, 64, 8), Some(Reason::Word.at(126)));
        assert_eq!(spoil(63, 0, 127), Some(Reason::Places.at(63)));
        assert_eq!(spoil(62, 1 << 31, 0), Some(Reason::Word.at(62)));
        assert_eq!(spoil(0, 0, 65_535), Some(Reason::Places.at(0)));
    }

    #[test]
    fn the_order_of_the_refusals() {
        let mut lists = lists(Kind::Pair, 3, 505);
        (lists.words[0], lists.ones[0]) = (64, 505);
        lists.twos.push(65_535);
        (lists.kind, lists.l) = (3, 13);
        assert_eq!(refusal(&lists), Some(Reason::Kind.at(0)));
        lists.kind = 1;
        assert_eq!(refusal(&lists), Some(Reason::WordLength.at(0)));
        lists.l = 3;
        assert_eq!(refusal(&lists), Some(Reason::Lists.at(0)));
        lists.twos.pop();
        assert_eq!(refusal(&lists), Some(Reason::Count.at(0)));
        _ = (lists.words.pop(), lists.ones.pop(), lists.twos.pop());
        assert_eq!(refusal(&lists), Some(Reason::Word.at(0)));
        lists.words[0] = 63;
        assert_eq!(refusal(&lists), Some(Reason::Places.at(0)));
        lists.ones[0] = 503;
        assert_eq!(refusal(&lists), None);
    }

    #[test]
    fn a_card_that_was_listed_is_written_again() {
        let mut random = Random::new(1);
        for _ in 0..300 {
            let card = any_sound_card(&mut random);
            let lists = Lists::of_card(&card).expect("a sound card");
            let (answer, out) = written(&lists, card.len() + 9);
            assert_eq!(answer, Ok(card.len()));
            assert_eq!(out, [&card[..], &[BEFORE; 9]].concat());
        }
    }

    #[test]
    fn lists_that_were_written_are_read_again() {
        let mut random = Random::new(2);
        for _ in 0..300 {
            let lists = any_sound_lists(&mut random);
            let (answer, out) = written(&lists, 5000);
            let size = answer.expect("sound lists");
            assert_eq!(Lists::of_card(&out[..size]), Ok(lists));
        }
    }

    #[test]
    fn the_writer_refuses_what_the_reader_would() {
        let mut random = Random::new(3);
        for _ in 0..3000 {
            let lists = any_lists(&mut random);
            if let Some(draft) = lists.draft() {
                let read = reader::admit(&draft.lay_out()).err();
                assert_eq!(refusal(&lists), read);
            }
        }
    }
}
