//! One entry: as it is stored, and as a word with its allowed places.

use crate::numbers::{ENTRY, NO_PLACE, SPAN_WIDTH};
use crate::profile::{Kind, Profile};
use crate::refusal::Reason;

/// The places that an entry is allowed.
#[derive(Clone, Copy, Debug, PartialEq, Eq)]
pub enum Places {
    /// One place.
    One(u16),
    /// Two places, the lower one first.
    Two(u16, u16),
    /// Every place from the first to the last, both included; they may be equal.
    Span(u16, u16),
}

impl Places {
    /// Every allowed place, from the lowest on.
    pub fn each(self) -> impl Iterator<Item = usize> {
        let (run, second) = match self {
            Places::One(place) => (place..=place, None),
            Places::Two(one, two) => (one..=one, Some(two)),
            Places::Span(first, last) => (first..=last, None),
        };
        run.chain(second).map(usize::from)
    }

    /// Says whether this is an allowed place.
    pub fn holds(self, place: usize) -> bool {
        let is = |allowed: u16| usize::from(allowed) == place;
        match self {
            Places::One(one) => is(one),
            Places::Two(one, two) => is(one) || is(two),
            Places::Span(first, last) => (usize::from(first)..=usize::from(last)).contains(&place),
        }
    }

    /// The last allowed place.
    pub fn last(self) -> usize {
        let (Places::One(last) | Places::Two(_, last) | Places::Span(_, last)) = self;
        usize::from(last)
    }

    /// The other of two places, where this is one of them.
    pub fn besides(self, place: usize) -> Option<usize> {
        let Places::Two(one, two) = self else {
            return None;
        };
        match (usize::from(one), usize::from(two)) {
            (one, two) if place == one => Some(two),
            (one, two) if place == two => Some(one),
            _ => None,
        }
    }
}

/// A word with its allowed places.
#[derive(Clone, Copy, Debug, PartialEq, Eq)]
pub struct Entry {
    /// The word's value.
    pub word: u32,
    /// Where the word may stand.
    pub places: Places,
}

/// The three fields of an entry as the card stores them, sound or not.
#[derive(Clone, Copy, Debug, PartialEq, Eq)]
pub struct Stored {
    /// The word's value.
    pub word: u32,
    /// Place one.
    pub one: u16,
    /// Place two.
    pub two: u16,
}

impl Stored {
    /// The fields that the bytes of an entry hold.
    pub fn of_bytes(bytes: &[u8; ENTRY]) -> Stored {
        let [w0, w1, w2, w3, p0, p1, q0, q1] = *bytes;
        Stored {
            word: u32::from_le_bytes([w0, w1, w2, w3]),
            one: u16::from_le_bytes([p0, p1]),
            two: u16::from_le_bytes([q0, q1]),
        }
    }

    /// The bytes of an entry that hold the fields.
    pub fn to_bytes(self) -> [u8; ENTRY] {
        let [w0, w1, w2, w3] = self.word.to_le_bytes();
        let [p0, p1] = self.one.to_le_bytes();
        let [q0, q1] = self.two.to_le_bytes();
        [w0, w1, w2, w3, p0, p1, q0, q1]
    }

    /// The entry that the fields mean on such a card, or the rule that they break: 10 before 11.
    pub fn entry(self, profile: &Profile) -> Result<Entry, Reason> {
        // A word of l letters is below 4^l, which is two bits for each letter.
        if self.word >> (2 * u32::from(profile.l)) != 0 {
            return Err(Reason::Word);
        }
        let places = self.places(profile).ok_or(Reason::Places)?;
        Ok(Entry {
            word: self.word,
            places,
        })
    }

    /// The allowed places, where the card's place rules hold.
    fn places(self, profile: &Profile) -> Option<Places> {
        let Stored { one, two, .. } = self;
        // No card has 65,535 entries, so that "no place" is never below m.
        match profile.kind {
            Kind::Pair if two == NO_PLACE => (one < profile.m).then_some(Places::One(one)),
            Kind::Pair => (one < two && two < profile.m).then_some(Places::Two(one, two)),
            Kind::Span => (one <= two && two < profile.m && two - one < SPAN_WIDTH)
                .then_some(Places::Span(one, two)),
        }
    }
}

#[cfg(test)]
mod tests {
    use super::*;

    const NONE: u16 = 65_535;

    fn meant(kind: Kind, one: u16, two: u16) -> Result<Places, Reason> {
        let profile = Profile { kind, l: 2, m: 20 };
        let stored = Stored { word: 0, one, two };
        stored.entry(&profile).map(|entry| entry.places)
    }

    #[test]
    fn the_bytes_of_an_entry() {
        let stored = Stored {
            word: 0x0403_0201,
            one: 0x0605,
            two: 0x0807,
        };
        assert_eq!(stored.to_bytes(), [1, 2, 3, 4, 5, 6, 7, 8]);
        assert_eq!(Stored::of_bytes(&stored.to_bytes()), stored);
    }

    #[test]
    fn places_of_a_pair_card() {
        let meant = |one, two| meant(Kind::Pair, one, two);
        assert_eq!(meant(0, NONE), Ok(Places::One(0)));
        assert_eq!(meant(19, NONE), Ok(Places::One(19)));
        assert_eq!(meant(20, NONE), Err(Reason::Places));
        assert_eq!(meant(0, 19), Ok(Places::Two(0, 19)));
        assert_eq!(meant(0, 20), Err(Reason::Places));
        assert_eq!(meant(7, 7), Err(Reason::Places));
        assert_eq!(meant(8, 7), Err(Reason::Places));
        assert_eq!(meant(NONE, NONE), Err(Reason::Places));
        assert_eq!(meant(NONE, 0), Err(Reason::Places));
    }

    #[test]
    fn places_of_a_span_card() {
        let meant = |one, two| meant(Kind::Span, one, two);
        assert_eq!(meant(0, 0), Ok(Places::Span(0, 0)));
        assert_eq!(meant(0, 7), Ok(Places::Span(0, 7)));
        assert_eq!(meant(0, 8), Err(Reason::Places));
        assert_eq!(meant(12, 19), Ok(Places::Span(12, 19)));
        assert_eq!(meant(13, 20), Err(Reason::Places));
        assert_eq!(meant(20, 20), Err(Reason::Places));
        assert_eq!(meant(8, 7), Err(Reason::Places));
        assert_eq!(meant(0, NONE), Err(Reason::Places));
        assert_eq!(meant(NONE, 0), Err(Reason::Places));
        assert_eq!(meant(NONE, NONE), Err(Reason::Places));
    }

    #[test]
    fn the_places_one_by_one() {
        let each = |places: Places| places.each().collect::<Vec<usize>>();
        assert_eq!(each(Places::One(3)), [3]);
        assert_eq!(each(Places::Two(3, 7)), [3, 7]);
        assert_eq!(each(Places::Span(3, 6)), [3, 4, 5, 6]);
        assert_eq!(each(Places::Span(3, 3)), [3]);

        for places in [Places::One(3), Places::Two(3, 7), Places::Span(3, 6)] {
            let held: Vec<usize> = (0..9).filter(|&place| places.holds(place)).collect();
            assert_eq!(held, each(places));
            assert_eq!(held.last(), Some(&places.last()));
        }

        assert_eq!(Places::Two(3, 7).besides(3), Some(7));
        assert_eq!(Places::Two(3, 7).besides(7), Some(3));
        assert_eq!(Places::Two(3, 7).besides(5), None);
        assert_eq!(Places::One(3).besides(3), None);
    }

    #[test]
    fn a_word_is_below_four_to_the_l_and_comes_first() {
        let word_on = |l, word| {
            let profile = Profile {
                kind: Kind::Span,
                l,
                m: 1,
            };
            let stored = Stored {
                word,
                one: 0,
                two: 0,
            };
            stored.entry(&profile).map(|entry| entry.word)
        };
        assert_eq!(word_on(2, 15), Ok(15));
        assert_eq!(word_on(2, 16), Err(Reason::Word));
        assert_eq!(word_on(12, 16_777_215), Ok(16_777_215));
        assert_eq!(word_on(12, 16_777_216), Err(Reason::Word));
        assert_eq!(word_on(12, u32::MAX), Err(Reason::Word));

        let profile = Profile {
            kind: Kind::Span,
            l: 2,
            m: 1,
        };
        let both_broken = Stored {
            word: 16,
            one: 1,
            two: 0,
        };
        assert_eq!(both_broken.entry(&profile), Err(Reason::Word));
    }
}
