//! Places with one candidate take it, until none is left to take.

use crate::entry::Entry;

/// The candidates that are left for a place.
#[derive(Clone, Copy, Debug, Default, PartialEq, Eq)]
pub struct Left {
    /// How many there are.
    pub count: usize,
    /// The sum of their indices: the index itself where there is one.
    pub sum: usize,
}

impl Left {
    /// Counts one more candidate.
    fn join(&mut self, entry: usize) {
        self.count += 1;
        self.sum += entry;
    }

    /// Counts a candidate no more.
    fn leave(&mut self, entry: usize) {
        self.count -= 1;
        self.sum -= entry;
    }
}

/// What is left for each place once every place with one candidate has taken it.
///
/// Nothing comes back where a place is left without a candidate. Otherwise, by
/// lemma 3 of document 000, one is left for each place, or two, and an entry
/// that is one of two is so at both its places.
pub fn settle(entries: &[Entry]) -> Option<Vec<Left>> {
    let mut left = vec![Left::default(); entries.len()];
    for (i, entry) in entries.iter().enumerate() {
        for place in entry.places.each() {
            left[place].join(i);
        }
    }
    if left.iter().any(|left| left.count == 0) {
        return None;
    }
    let alone = |&place: &usize| left[place].count == 1;
    let mut due: Vec<usize> = (0..left.len()).filter(alone).collect();
    while let Some(place) = due.pop() {
        let entry = left[place].sum;
        if let Some(other) = entries[entry].places.besides(place) {
            left[other].leave(entry);
            match left[other].count {
                0 => return None,
                1 => due.push(other),
                _ => {}
            }
        }
    }
    Some(left)
}

#[cfg(test)]
mod tests {
    use super::*;
    use crate::entry::Places::{self, One, Two};

    /// What is left for the places of entries with these places.
    fn left(places: &[Places]) -> Option<Vec<(usize, usize)>> {
        let entry = |&places| Entry { word: 0, places };
        let entries: Vec<Entry> = places.iter().map(entry).collect();
        let left = settle(&entries)?;
        Some(left.iter().map(|left| (left.count, left.sum)).collect())
    }

    #[test]
    fn a_chain_settles_from_its_end() {
        let chain = [One(0), Two(0, 1), Two(1, 2), Two(2, 3)];
        assert_eq!(left(&chain), Some(vec![(1, 0), (1, 1), (1, 2), (1, 3)]));
        let other_way = [Two(0, 1), Two(1, 2), Two(2, 3), One(3)];
        assert_eq!(left(&other_way), Some(vec![(1, 0), (1, 1), (1, 2), (1, 3)]));
    }

    #[test]
    fn many_candidates_for_one_place() {
        let star = [Two(1, 2), One(2), Two(0, 2), Two(2, 3)];
        assert_eq!(left(&star), Some(vec![(1, 2), (1, 0), (1, 1), (1, 3)]));
    }

    #[test]
    fn rings_are_left() {
        let ring = [Two(0, 1), Two(0, 1), One(2)];
        assert_eq!(left(&ring), Some(vec![(2, 1), (2, 1), (1, 2)]));
        let with_a_tail = [Two(0, 2), Two(1, 2), Two(0, 1), Two(0, 3)];
        assert_eq!(
            left(&with_a_tail),
            Some(vec![(2, 2), (2, 3), (2, 1), (1, 3)])
        );
    }

    #[test]
    fn a_place_without_a_candidate() {
        assert_eq!(left(&[One(1), One(1)]), None);
        assert_eq!(left(&[One(0), One(0), Two(1, 2)]), None);
        assert_eq!(left(&[Two(0, 1), Two(0, 1), Two(0, 1), Two(2, 3)]), None);
    }
}
