//! Rings that are tied: the side of one tells the side of the other.
//!
//! Tied rings are a class with one leader. Each ring keeps a way up to its
//! leader, and whether the two are turned to different sides.

use super::rings::Side;

/// The classes of tied rings.
pub struct Ties {
    /// The next ring on the way to each ring's leader, and the turn between the two.
    up: Vec<(usize, Side)>,
    /// How many rings each leader leads, itself among them.
    led: Vec<usize>,
}

impl Ties {
    /// So many rings, of which none are tied.
    pub fn of_none(rings: usize) -> Ties {
        Ties {
            up: (0..rings).map(|ring| (ring, 0)).collect(),
            led: vec![1; rings],
        }
    }

    /// The ring's leader, and the turn between the two: 0 where their sides are equal.
    pub fn leader(&mut self, mut ring: usize) -> (usize, Side) {
        let mut turn = 0;
        while self.up[ring].0 != ring {
            let (up, by) = self.up[ring];
            let (above, more) = self.up[up];
            // The way gets shorter for the next time.
            self.up[ring] = (above, by ^ more);
            turn ^= by ^ more;
            ring = above;
        }
        (ring, turn)
    }

    /// Ties two rings with this turn between them, and says whether that can hold.
    pub fn can_tie(&mut self, one: usize, other: usize, turn: Side) -> bool {
        let (one, by) = self.leader(one);
        let (other, more) = self.leader(other);
        let turn = turn ^ by ^ more;
        if one == other {
            return turn == 0;
        }
        let (high, low) = match self.led[one] < self.led[other] {
            true => (other, one),
            false => (one, other),
        };
        self.up[low] = (high, turn);
        self.led[high] += self.led[low];
        true
    }
}

#[cfg(test)]
mod tests {
    use super::*;

    #[test]
    fn turns_add_up() {
        let mut ties = Ties::of_none(5);
        assert!(ties.can_tie(0, 1, 1));
        assert!(ties.can_tie(1, 2, 1));
        assert!(ties.can_tie(3, 4, 0));
        assert!(ties.can_tie(0, 2, 0));
        assert!(!ties.can_tie(0, 2, 1));
        assert!(ties.can_tie(4, 0, 1));
        assert!(ties.can_tie(3, 1, 0));
        assert!(!ties.can_tie(3, 1, 1));
    }

    #[test]
    fn a_ring_is_tied_to_itself() {
        let mut ties = Ties::of_none(1);
        assert!(ties.can_tie(0, 0, 0));
        assert!(!ties.can_tie(0, 0, 1));
    }

    #[test]
    fn a_long_row_of_ties() {
        let mut ties = Ties::of_none(1000);
        assert!((1..1000).all(|ring| ties.can_tie(ring - 1, ring, 1)));
        let (leader, turn) = ties.leader(0);
        assert_eq!(ties.leader(999), (leader, turn ^ 1));
        assert_eq!(ties.leader(500), (leader, turn));
        assert!(!ties.can_tie(2, 998, 1));
    }
}
