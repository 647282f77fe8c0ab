//! Lists with one fault at a time, and the edges beside it that pass.

use crate::entry::Stored;
use crate::lists::{odd_numbers, Lists};
use crate::profile::Kind;
use crate::vectors::cases::faults::edge_places;
use crate::vectors::cases::{Cases, KINDS};

impl Cases {
    /// Kinds and ls of every size: 5 comes before 6.
    pub(super) fn odd_kinds_and_letters(&mut self) {
        let odd = odd_numbers();
        for &number in &odd {
            for l in [2, 12, self.random.pick(&odd), self.random.pick(&odd)] {
                self.kind_and_letters(number, l);
            }
            for kind in [1, 2] {
                self.kind_and_letters(kind, number);
            }
        }
    }

    /// Records lists of this kind and l that are sound in all else, on either kind and for every l.
    fn kind_and_letters(&mut self, kind: usize, l: usize) {
        let mut lists = Lists::empty(kind, l);
        for _ in 0..self.random.between(2, 4) {
            let word = self.random.below(16) as u32;
            let (one, two) = (0, 1);
            lists.push(Stored { word, one, two });
        }
        match (kind, l) {
            (1..=2, 2..=12) => self.written_somewhere(&lists),
            (1..=2, _) => self.unwritten(&lists, 6, 0),
            (_, _) => self.unwritten(&lists, 5, 0),
        }
    }

    /// Lists that differ in length, short and long.
    pub(super) fn list_lengths(&mut self) {
        for kind in KINDS {
            for (a, b, c) in short_lengths() {
                let mut lists = self.flat_lists(kind, 3);
                lists.words.truncate(a);
                lists.ones.truncate(b);
                lists.twos.truncate(c);
                match (a, b, c) {
                    (0, 0, 0) => self.unwritten(&lists, 7, 0),
                    (a, b, c) if a == b && b == c => self.written_somewhere(&lists),
                    _ => self.unwritten(&lists, 13, 0),
                }
            }
            for (m, n) in [(1, 64), (62, 63), (63, 64), (126, 127)] {
                for differing in [[m, m, n], [m, n, m], [n, m, m], [n, n, m]] {
                    self.different_lengths(kind, differing);
                }
            }
        }
        for (m, n) in [(504, 505), (599, 600), (0, 600)] {
            for differing in [[m, n, n], [n, m, n], [n, n, m], [n, m, m]] {
                let kind = self.random.pick(&KINDS);
                self.different_lengths(kind, differing);
            }
        }
    }

    /// Records lists of these lengths, which differ, with elements that are sound.
    fn different_lengths(&mut self, kind: Kind, [a, b, c]: [usize; 3]) {
        let mut lists = self.flat_lists(kind, a.max(b).max(c));
        lists.words.truncate(a);
        lists.ones.truncate(b);
        lists.twos.truncate(c);
        self.unwritten(&lists, 13, 0);
    }

    /// Counts out of their limits; the limits themselves pass.
    pub(super) fn list_counts(&mut self) {
        for kind in KINDS {
            for m in [0, 505, 506, 512, 567, 568, 599, 600] {
                let lists = self.flat_lists(kind, m);
                self.unwritten(&lists, 7, 0);
            }
            for m in [1, 504] {
                let lists = self.flat_lists(kind, m);
                self.written_somewhere(&lists);
            }
        }
    }

    /// Words at their limit for each l, and at several entries.
    pub(super) fn list_words(&mut self) {
        for kind in KINDS {
            for l in 2..=12 {
                let limit = 1u32 << (2 * l);
                let sound = Lists::sound(&mut self.random, kind, l, 5);
                let i = self.random.below(5);
                let word = sound.words[i];
                let high = [word | 1 << 31, word | 1 << 24, limit << 1, u32::MAX];
                for word in [limit, limit + 1].into_iter().chain(high) {
                    let mut lists = sound.clone();
                    lists.words[i] = word;
                    self.unwritten(&lists, 10, i);
                }
            }
            for (m, entries) in [
                (64, &[0, 1, 61, 62, 63][..]),
                (127, &[0, 61, 62, 63, 64, 125, 126]),
                (504, &[0, 62, 63, 503]),
            ] {
                let mut lists = Lists::sound(&mut self.random, kind, 9, m);
                for &i in entries {
                    lists.words[i] = 1 << 18;
                    self.unwritten(&lists, 10, i);
                    lists.words[i] -= 1;
                }
                self.written_somewhere(&lists);
            }
        }
    }

    /// Places at their limits, for several counts and at several entries.
    pub(super) fn list_places(&mut self) {
        for (m, entries) in [
            (1, &[0][..]),
            (2, &[0, 1]),
            (8, &[0, 7]),
            (9, &[0, 4, 8]),
            (63, &[62]),
            (64, &[0, 62, 63]),
            (127, &[62, 63, 125, 126]),
            (504, &[63, 503]),
        ] {
            for kind in KINDS {
                let sound = Lists::sound(&mut self.random, kind, 10, m);
                for &i in entries {
                    for (one, two, allowed) in edge_places(kind, m) {
                        // Full lists are long, so that only some of their edges are kept.
                        if m == 504 && !self.random.once_in(4) {
                            continue;
                        }
                        let mut lists = sound.clone();
                        (lists.ones[i], lists.twos[i]) = (one, two);
                        if allowed {
                            self.written_somewhere(&lists);
                        } else {
                            self.unwritten(&lists, 11, i);
                        }
                    }
                }
            }
        }
    }
}

/// All lengths of three lists up to 3.
fn short_lengths() -> impl Iterator<Item = (usize, usize, usize)> {
    (0..64).map(|n| (n / 16, n / 4 % 4, n % 4))
}
