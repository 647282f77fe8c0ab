//! Whether words are a build of sound lists, without a look at how it was found.

use crate::lists::Lists;

/// Says whether these words are a build of the lists.
///
/// Neighbours must overlap, and each place must get an entry of its own that
/// has the place's word and may stand there.
pub fn is_build(lists: &Lists, words: &[u32]) -> bool {
    let tails = 1 << (2 * (lists.l - 1));
    let mut pairs = words.windows(2);
    let mut matching = Matching::new(lists, words);
    words.len() == lists.words.len()
        && pairs.all(|pair| pair[0] % tails == pair[1] / 4)
        && (0..words.len()).all(|place| matching.can_fill(place))
}

/// Entries that were given to places.
struct Matching {
    /// The entries that each place may get.
    candidates: Vec<Vec<usize>>,
    /// The place that each entry was given to.
    places: Vec<Option<usize>>,
}

impl Matching {
    /// No entry is given to a place.
    fn new(lists: &Lists, words: &[u32]) -> Matching {
        let (_, entries) = lists.admitted().expect("lists that are sound");
        let mut candidates = vec![Vec::new(); words.len()];
        for (i, entry) in entries.iter().enumerate() {
            for place in entry.places.each() {
                if words.get(place) == Some(&entry.word) {
                    candidates[place].push(i);
                }
            }
        }
        Matching {
            candidates,
            places: vec![None; entries.len()],
        }
    }

    /// Gives the place an entry, where one can be had, and leaves none without that had one.
    fn can_fill(&mut self, place: usize) -> bool {
        let mut asked = vec![false; self.places.len()];
        self.can_fill_from(place, &mut asked)
    }

    /// The same, but without the entries that were asked before.
    fn can_fill_from(&mut self, place: usize, asked: &mut [bool]) -> bool {
        for k in 0..self.candidates[place].len() {
            let entry = self.candidates[place][k];
            if std::mem::replace(&mut asked[entry], true) {
                continue;
            }
            let free = match self.places[entry] {
                None => true,
                // Its place may do with another.
                Some(other) => self.can_fill_from(other, asked),
            };
            if free {
                self.places[entry] = Some(place);
                return true;
            }
        }
        false
    }
}
