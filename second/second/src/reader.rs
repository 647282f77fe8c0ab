//! Reading a card: admitting it, fetching an entry, the reading head, the lists.

use crate::block::{self, Block};
use crate::entry::{Entry, Stored};
use crate::numbers::{
    BLOCK, COUNT, ENTRIES_PER_BLOCK, ENTRY, FORM, HEAD_GAP, HEAD_SPARE, INDEX, KIND, THE_FORM,
    WORD_LENGTH,
};
use crate::profile::{self, Kind, Profile};
use crate::refusal::{Reason, Refusal};

/// Admits the card: tests all of it in the order on reading and answers kind, l and m.
pub fn admit(card: &[u8]) -> Result<Profile, Refusal> {
    if card.len() < BLOCK {
        return Err(Reason::Short.at(0));
    }
    let profile = admit_head(block::sound(card, 0)?)?;
    if card.len() != profile.size() {
        return Err(Reason::Size.at(0));
    }
    for k in 1..profile.blocks() {
        admit_entries(&profile, block::sound(card, k)?, k)?;
    }
    Ok(profile)
}

/// Entry i of the card: the reader's refusals come first, then 14 where there is no such entry.
pub fn entry(card: &[u8], i: usize) -> Result<Entry, Refusal> {
    let profile = admit(card)?;
    if i >= usize::from(profile.m) {
        return Err(Reason::Absent.at(0));
    }
    entry_of_admitted(card, &profile, i)
}

/// The reading head: it stands before the entry with this number.
#[derive(Clone, Copy, Debug, PartialEq, Eq)]
pub struct Head {
    /// The number of the entry that the next step hands back.
    pub at: usize,
}

impl Head {
    /// The head before entry 0.
    pub fn start() -> Head {
        Head { at: 0 }
    }

    /// Admits the card and hands back the entry with the head moved one on, or nothing at the end.
    pub fn step(self, card: &[u8]) -> Result<Option<(Entry, Head)>, Refusal> {
        let profile = admit(card)?;
        if self.at >= usize::from(profile.m) {
            return Ok(None);
        }
        let entry = entry_of_admitted(card, &profile, self.at)?;
        let moved = Head { at: self.at + 1 };
        Ok(Some((entry, moved)))
    }
}

/// Admits the card and gives kind, l, m and all entries.
pub fn entries(card: &[u8]) -> Result<(Profile, Vec<Entry>), Refusal> {
    let profile = admit(card)?;
    // The rules held when the card was admitted, so that no entry is left out.
    let entries = stored(card, &profile).flat_map(|stored| stored.entry(&profile));
    Ok((profile, entries.collect()))
}

/// Admits the card and writes its fields to the first m slots of three lent lists.
///
/// The reader's refusals come first, then 12 where any list has fewer than m
/// slots. A refusal changes no slot, and the slots after the first m are never
/// changed.
pub fn admit_into(
    card: &[u8],
    words: &mut [u32],
    ones: &mut [u16],
    twos: &mut [u16],
) -> Result<Profile, Refusal> {
    let profile = admit(card)?;
    let m = usize::from(profile.m);
    if words.len() < m || ones.len() < m || twos.len() < m {
        return Err(Reason::Room.at(0));
    }
    let lists = words.iter_mut().zip(ones).zip(twos);
    for (stored, ((word, one), two)) in stored(card, &profile).zip(lists) {
        *word = stored.word;
        *one = stored.one;
        *two = stored.two;
    }
    Ok(profile)
}

/// What a sound block 0 says, or the refusal it gets: 4, 5, 6, 7, 8.
fn admit_head(head: &Block) -> Result<Profile, Refusal> {
    if head[FORM] != THE_FORM {
        return Err(Reason::Form.at(0));
    }
    let kind = Kind::of_number(usize::from(head[KIND]))?;
    let l = profile::letters(usize::from(head[WORD_LENGTH]))?;
    let m = u16::from_le_bytes([head[COUNT], head[COUNT + 1]]);
    let m = profile::count(usize::from(m))?;
    if head[HEAD_GAP] != 0 || !is_zero(&head[HEAD_SPARE..INDEX]) {
        return Err(Reason::Spare.at(0));
    }
    Ok(Profile { kind, l, m })
}

/// Tests what a sound later block k holds: its entries in turn, then its spare bytes.
fn admit_entries(profile: &Profile, block: &Block, k: usize) -> Result<(), Refusal> {
    let first = (k - 1) * ENTRIES_PER_BLOCK;
    let used = ENTRIES_PER_BLOCK.min(usize::from(profile.m) - first);
    for (slot, bytes) in slots(block)[..used].iter().enumerate() {
        Stored::of_bytes(bytes)
            .entry(profile)
            .map_err(|reason| reason.at(first + slot))?;
    }
    if !is_zero(&block[used * ENTRY..INDEX]) {
        return Err(Reason::Spare.at(k));
    }
    Ok(())
}

/// Entry i of a card that was admitted with this profile, for i below m.
fn entry_of_admitted(card: &[u8], profile: &Profile, i: usize) -> Result<Entry, Refusal> {
    let start = (1 + i / ENTRIES_PER_BLOCK) * BLOCK + (i % ENTRIES_PER_BLOCK) * ENTRY;
    let (slots, _rest) = card[start..].as_chunks::<ENTRY>();
    // The rules held when the card was admitted, so that they do not refuse here.
    Stored::of_bytes(&slots[0])
        .entry(profile)
        .map_err(|reason| reason.at(i))
}

/// The entries in turn of a card that was admitted with this profile, as stored.
fn stored<'a>(card: &'a [u8], profile: &Profile) -> impl Iterator<Item = Stored> + 'a {
    let (blocks, _rest) = card[BLOCK..].as_chunks::<BLOCK>();
    let used = blocks.iter().flat_map(slots).take(usize::from(profile.m));
    used.map(Stored::of_bytes)
}

/// The entry slots of a later block, used or not.
fn slots(block: &Block) -> &[[u8; ENTRY]] {
    block[..ENTRIES_PER_BLOCK * ENTRY].as_chunks::<ENTRY>().0
}

/// Says whether every byte is zero.
fn is_zero(bytes: &[u8]) -> bool {
    bytes.iter().all(|&byte| byte == 0)
}

#[cfg(test)]
mod tests {
    use super::*;
    use crate::cards::put_right;
    use crate::entry::Places;
    use crate::examples::{plain, s1};

    #[test]
    fn the_s1_card_is_admitted_and_listed() {
        let card = s1();
        let profile = Profile {
            kind: Kind::Span,
            l: 2,
            m: 4,
        };
        assert_eq!(admit(&card), Ok(profile));

        let expected = [
            (1, Places::Span(0, 2)),
            (4, Places::Span(1, 3)),
            (2, Places::Span(0, 2)),
            (8, Places::Span(1, 3)),
        ];
        let all = expected.map(|(word, places)| Entry { word, places });
        assert_eq!(entries(&card), Ok((profile, all.to_vec())));
        let mut head = Head::start();
        for (i, (word, places)) in expected.into_iter().enumerate() {
            let listed = Entry { word, places };
            let moved = Head { at: i + 1 };
            assert_eq!(entry(&card, i), Ok(listed));
            assert_eq!(head.step(&card), Ok(Some((listed, moved))));
            head = moved;
        }
        for at in [4, 5, usize::MAX] {
            assert_eq!(Head { at }.step(&card), Ok(None));
            assert_eq!(entry(&card, at), Err(Reason::Absent.at(0)));
        }
    }

    #[test]
    fn the_s1_card_goes_into_lists() {
        let mut words = [7; 5];
        let mut ones = [8; 4];
        let mut twos = [9; 6];
        assert!(admit_into(&s1(), &mut words, &mut ones, &mut twos).is_ok());
        assert_eq!(words, [1, 4, 2, 8, 7]);
        assert_eq!(ones, [0, 1, 0, 1]);
        assert_eq!(twos, [2, 3, 2, 3, 9, 9]);
    }

    #[test]
    fn lists_that_are_too_short_are_left_alone() {
        let mut words = [7; 4];
        let mut ones = [8; 4];
        let mut twos = [9; 3];
        let answer = admit_into(&s1(), &mut words, &mut ones, &mut twos);
        assert_eq!(answer, Err(Reason::Room.at(0)));
        assert_eq!((words, ones, twos), ([7; 4], [8; 4], [9; 3]));
        // The card's own refusal comes before 12.
        let answer = admit_into(&s1()[..1023], &mut words, &mut ones, &mut twos);
        assert_eq!(answer, Err(Reason::Size.at(0)));
    }

    #[test]
    fn edges_of_the_length_of_a_word() {
        for kind in [Kind::Pair, Kind::Span] {
            for l in [2, 12] {
                let card = plain(kind, l, 1).lay_out();
                assert_eq!(admit(&card), Ok(Profile { kind, l, m: 1 }));
            }
            for l in [0, 1, 13, 255] {
                let card = plain(kind, l, 1).lay_out();
                assert_eq!(admit(&card), Err(Reason::WordLength.at(0)));
            }
        }
    }

    #[test]
    fn edges_of_the_count() {
        for kind in [Kind::Pair, Kind::Span] {
            for m in [1, 63, 64, 504] {
                let card = plain(kind, 3, m).lay_out();
                assert_eq!(admit(&card), Ok(Profile { kind, l: 3, m }));
            }
            for m in [0, 505] {
                let card = plain(kind, 3, m).lay_out();
                assert_eq!(admit(&card), Err(Reason::Count.at(0)));
            }
        }
        assert_eq!(plain(Kind::Pair, 3, 63).lay_out().len(), 1024);
        assert_eq!(plain(Kind::Pair, 3, 64).lay_out().len(), 1536);
        assert_eq!(plain(Kind::Pair, 3, 504).lay_out().len(), 4608);
    }

    #[test]
    fn edges_of_a_place() {
        let mut pair = plain(Kind::Pair, 3, 100);
        pair.entries[70].one = 99;
        assert!(admit(&pair.lay_out()).is_ok());
        pair.entries[70].one = 100;
        assert_eq!(admit(&pair.lay_out()), Err(Reason::Places.at(70)));

        let mut span = plain(Kind::Span, 3, 100);
        (span.entries[99].one, span.entries[99].two) = (99, 99);
        assert!(admit(&span.lay_out()).is_ok());
        span.entries[99].two = 100;
        assert_eq!(admit(&span.lay_out()), Err(Reason::Places.at(99)));
    }

    #[test]
    fn edges_of_the_width() {
        let mut span = plain(Kind::Span, 3, 100);
        (span.entries[0].one, span.entries[0].two) = (10, 17);
        assert!(admit(&span.lay_out()).is_ok());
        span.entries[0].two = 18;
        assert_eq!(admit(&span.lay_out()), Err(Reason::Places.at(0)));

        let mut pair = plain(Kind::Pair, 3, 100);
        (pair.entries[0].one, pair.entries[0].two) = (0, 99);
        assert!(admit(&pair.lay_out()).is_ok());
    }

    #[test]
    fn short_and_wrongly_sized_cards() {
        let mut card = s1();
        for n in [0, 1, 511] {
            assert_eq!(admit(&card[..n]), Err(Reason::Short.at(0)));
        }
        for n in [512, 1023] {
            assert_eq!(admit(&card[..n]), Err(Reason::Size.at(0)));
        }
        // The size is tested before any later block, so that damage there does not show.
        card[600] = 1;
        card.push(0);
        assert_eq!(admit(&card), Err(Reason::Size.at(0)));
        card.pop();
        assert_eq!(admit(&card), Err(Reason::Check.at(1)));
        put_right(&mut card, 1);
        assert_eq!(admit(&card), Err(Reason::Spare.at(1)));
    }

    #[test]
    fn the_order_in_block_0() {
        let mut card = s1();
        card[3] = 1;
        put_right(&mut card, 0);
        assert_eq!(admit(&card), Err(Reason::Spare.at(0)));
        card[5] = 2;
        put_right(&mut card, 0);
        assert_eq!(admit(&card), Err(Reason::Count.at(0)));
        card[2] = 13;
        put_right(&mut card, 0);
        assert_eq!(admit(&card), Err(Reason::WordLength.at(0)));
        card[1] = 3;
        put_right(&mut card, 0);
        assert_eq!(admit(&card), Err(Reason::Kind.at(0)));
        card[0] = 2;
        put_right(&mut card, 0);
        assert_eq!(admit(&card), Err(Reason::Form.at(0)));
        card[509] = 1;
        put_right(&mut card, 0);
        assert_eq!(admit(&card), Err(Reason::Index.at(0)));
        card[510] ^= 1;
        assert_eq!(admit(&card), Err(Reason::Check.at(0)));
    }

    #[test]
    fn the_order_in_later_blocks() {
        let mut card = plain(Kind::Span, 3, 64).lay_out();
        card[1024 + 16] = 1;
        put_right(&mut card, 2);
        assert_eq!(admit(&card), Err(Reason::Spare.at(2)));
        card[1024 + 4] = 1;
        put_right(&mut card, 2);
        assert_eq!(admit(&card), Err(Reason::Places.at(63)));
        card[1024] = 64;
        put_right(&mut card, 2);
        assert_eq!(admit(&card), Err(Reason::Word.at(63)));
        card[1024 + 508] = 3;
        put_right(&mut card, 2);
        assert_eq!(admit(&card), Err(Reason::Index.at(2)));
        card[1024 + 511] ^= 1;
        assert_eq!(admit(&card), Err(Reason::Check.at(2)));
        card[512 + 507] = 1;
        put_right(&mut card, 1);
        assert_eq!(admit(&card), Err(Reason::Spare.at(1)));
        card[512 + 62 * 8 + 4] = 1;
        put_right(&mut card, 1);
        assert_eq!(admit(&card), Err(Reason::Places.at(62)));
        card[512 + 61 * 8 + 3] = 1;
        put_right(&mut card, 1);
        assert_eq!(admit(&card), Err(Reason::Word.at(61)));
    }
}
