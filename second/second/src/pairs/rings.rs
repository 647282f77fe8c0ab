//! What is left where places have two candidates: rings, each with two sides.
//!
//! Of a ring's places each has two candidates and each candidate two places.
//! One entry at one place decides the rest all the way round.

use super::settling::Left;
use crate::entry::{Entry, Places};

/// What a ring is turned to: 0 or 1.
pub type Side = usize;

/// The ring of the places that are settled, both of whose sides are the same.
pub const SETTLED: usize = 0;

/// What may stand at a place.
#[derive(Clone, Copy, Debug, PartialEq, Eq)]
pub struct Stand {
    /// The ring that the place lies on.
    pub ring: usize,
    /// The entry that stands there, for each side of the ring.
    pub sides: [usize; 2],
}

/// The rings through all places.
pub struct Rings {
    /// How many rings there are, the settled one among them.
    pub count: usize,
    /// What may stand at each place.
    pub stands: Vec<Stand>,
}

impl Rings {
    /// The rings through the places for which these candidates are left.
    pub fn through(entries: &[Entry], left: &[Left]) -> Rings {
        let mut stands: Vec<Option<Stand>> = left.iter().map(settled).collect();
        let mut count = SETTLED + 1;
        for (i, entry) in entries.iter().enumerate() {
            // One place alone is settled.
            let Places::Two(one, two) = entry.places else {
                continue;
            };
            let (one, two) = (usize::from(one), usize::from(two));
            if stands[one].is_none() && stands[two].is_none() {
                go_round(entries, left, &mut stands, (i, one), count);
                count += 1;
            }
        }
        // Every place is settled or on a ring by now.
        let stands = stands.into_iter().flatten().collect();
        Rings { count, stands }
    }
}

/// What stands at a place for which one candidate is left.
fn settled(left: &Left) -> Option<Stand> {
    (left.count == 1).then_some(Stand {
        ring: SETTLED,
        sides: [left.sum, left.sum],
    })
}

/// Goes round the ring whose side 0 puts this entry at this place.
fn go_round(
    entries: &[Entry],
    left: &[Left],
    stands: &mut [Option<Stand>],
    (mut entry, mut place): (usize, usize),
    ring: usize,
) {
    while stands[place].is_none() {
        let rival = left[place].sum - entry;
        let sides = [entry, rival];
        stands[place] = Some(Stand { ring, sides });
        // The entry is not at its other place, so that its rival there is.
        if let Some(other) = entries[entry].places.besides(place) {
            place = other;
            entry = left[place].sum - entry;
        }
    }
}

#[cfg(test)]
mod tests {
    use super::super::settling::settle;
    use super::*;
    use crate::entry::Places::{One, Two};

    /// What may stand at the places of entries with these places: ring and sides.
    fn stands(places: &[Places]) -> Vec<(usize, [usize; 2])> {
        let entry = |&places| Entry { word: 0, places };
        let entries: Vec<Entry> = places.iter().map(entry).collect();
        let left = settle(&entries).expect("a candidate for every place");
        let rings = Rings::through(&entries, &left);
        let shown = |stand: &Stand| (stand.ring, stand.sides);
        rings.stands.iter().map(shown).collect()
    }

    #[test]
    fn two_places_and_two_entries() {
        assert_eq!(stands(&[Two(0, 1), Two(0, 1)]), [(1, [0, 1]), (1, [1, 0])]);
    }

    #[test]
    fn a_long_ring() {
        let ring = [Two(0, 1), Two(1, 2), Two(2, 3), Two(0, 3)];
        assert_eq!(
            stands(&ring),
            [(1, [0, 3]), (1, [1, 0]), (1, [2, 1]), (1, [3, 2])]
        );
    }

    #[test]
    fn rings_beside_what_is_settled() {
        let two_rings = [Two(1, 4), Two(0, 3), One(2), Two(0, 3), Two(1, 4)];
        assert_eq!(
            stands(&two_rings),
            [
                (2, [1, 3]),
                (1, [0, 4]),
                (0, [2, 2]),
                (2, [3, 1]),
                (1, [4, 0])
            ]
        );
        // The last entry settles at 3, and may not stand on the ring.
        let with_a_tail = [Two(0, 2), Two(1, 2), Two(0, 1), Two(0, 3)];
        assert_eq!(
            stands(&with_a_tail),
            [(1, [0, 2]), (1, [2, 1]), (1, [1, 0]), (0, [3, 3])]
        );
    }
}
