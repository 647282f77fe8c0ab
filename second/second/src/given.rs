//! What a call is given as three lists, tested in its own order.

use crate::entry::{Entry, Stored};
use crate::profile::{self, Kind, Profile};
use crate::refusal::{Reason, Refusal};

/// The three lists as they are lent to a call, sound or not.
#[derive(Clone, Copy, Debug)]
pub struct Given<'a> {
    /// The words.
    pub words: &'a [u32],
    /// Place one of each entry.
    pub ones: &'a [u16],
    /// Place two of each entry.
    pub twos: &'a [u16],
}

impl<'a> Given<'a> {
    /// The kind, l and m of the card that the lists ask for, where they pass their tests.
    ///
    /// Tested are 6, 13 where the lists differ in length, 7, then the entries
    /// in turn, 10 before 11. The card has as many entries as the lists.
    pub fn profile(self, kind: Kind, l: usize) -> Result<Profile, Refusal> {
        let l = profile::letters(l)?;
        let m = self.words.len();
        if self.ones.len() != m || self.twos.len() != m {
            return Err(Reason::Lists.at(0));
        }
        let m = profile::count(m)?;
        let profile = Profile { kind, l, m };
        for (i, stored) in self.entries().enumerate() {
            stored.entry(&profile).map_err(|reason| reason.at(i))?;
        }
        Ok(profile)
    }

    /// What the lists say, where they pass their tests: kind, l and m, and the entries.
    ///
    /// Tested are 5, then what `profile` tests.
    pub fn admitted(self, kind: usize, l: usize) -> Result<(Profile, Vec<Entry>), Refusal> {
        let profile = self.profile(Kind::of_number(kind)?, l)?;
        // All of them passed their tests, so that no entry is left out.
        let entries = self.entries().flat_map(|stored| stored.entry(&profile));
        Ok((profile, entries.collect()))
    }

    /// The entries in turn, as many as all three lists have.
    pub fn entries(self) -> impl Iterator<Item = Stored> + 'a {
        let lists = self.words.iter().zip(self.ones).zip(self.twos);
        lists.map(|((&word, &one), &two)| Stored { word, one, two })
    }
}
