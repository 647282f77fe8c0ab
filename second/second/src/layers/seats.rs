//! A seat for each entry, which no other entry has at any of its places.
//!
//! So the entries over a place are told apart by their seats, and a set of
//! them is a set of seats, from place to place.

use crate::entry::Entry;
use crate::numbers::MOST_OVER;

/// A set of seats, one bit for each.
#[derive(Clone, Copy, Debug, PartialEq, Eq, Hash)]
pub struct Set(u8);

impl Set {
    /// The set without this seat.
    pub fn without(self, seat: usize) -> Set {
        Set(self.0 & !(1 << seat))
    }

    /// The seats of both sets.
    pub fn with(self, other: Set) -> Set {
        Set(self.0 | other.0)
    }

    /// Says whether this seat is in the set.
    pub fn has(self, seat: usize) -> bool {
        self.0 >> seat & 1 == 1
    }
}

/// An entry that may stand at a place; candidates are in order by word, then by end, then by index.
#[derive(Clone, Copy, Debug, PartialEq, Eq, PartialOrd, Ord)]
pub struct Candidate {
    /// Its word.
    pub word: u32,
    /// The last place that it may stand at.
    end: usize,
    /// Where it stands among the entries.
    index: usize,
    /// Its seat.
    pub seat: usize,
}

/// The entries over one place.
#[derive(Clone)]
struct Over {
    /// The entry in each seat that is taken.
    seated: [Option<Candidate>; MOST_OVER],
    /// The seats of those that begin here.
    beginning: Set,
}

/// The entries over each place, by their seats.
pub struct Seats(Vec<Over>);

impl Seats {
    /// Gives each entry a seat, from the first place on, unless more entries are over a place than there are seats.
    pub fn new(entries: &[Entry]) -> Option<Seats> {
        let nobody = Over {
            seated: [None; MOST_OVER],
            beginning: Set(0),
        };
        let mut seats = Seats(vec![nobody; entries.len()]);
        let mut order: Vec<usize> = (0..entries.len()).collect();
        order.sort_by_key(|&index| entries[index].places.each().next());
        for index in order {
            seats.seat(index, entries[index])?;
        }
        Some(seats)
    }

    /// Gives an entry a seat that is free at its first place, where there is one.
    ///
    /// Nobody who begins later is seated yet, so that the seat is free at all its places.
    fn seat(&mut self, index: usize, entry: Entry) -> Option<()> {
        let first = entry.places.each().next()?;
        let over = &mut self.0[first];
        let seat = over.seated.iter().position(Option::is_none)?;
        over.beginning = over.beginning.with(Set(1 << seat));
        let seated = Candidate {
            word: entry.word,
            end: entry.places.last(),
            index,
            seat,
        };
        for place in entry.places.each() {
            self.0[place].seated[seat] = Some(seated);
        }
        Some(())
    }

    /// The number of places, which is that of the entries.
    pub fn places(&self) -> usize {
        self.0.len()
    }

    /// The seats of the entries that begin at this place; after the last place there are none.
    pub fn beginning(&self, place: usize) -> Set {
        self.0.get(place).map_or(Set(0), |over| over.beginning)
    }

    /// Those of the unused entries that may stand at this place: one that ends here, or any where none does.
    pub fn candidates(&self, place: usize, unused: Set) -> Vec<Candidate> {
        let seated = self.0[place].seated.iter().flatten().copied();
        let over: Vec<Candidate> = seated.filter(|entry| unused.has(entry.seat)).collect();
        let mut due = over.iter().filter(|entry| entry.end == place);
        match (due.next(), due.next()) {
            (None, _) => over,
            (Some(&only), None) => vec![only],
            // One of them would be left behind.
            _ => Vec::new(),
        }
    }
}
