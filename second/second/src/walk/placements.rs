//! The placements of span lists in another way than the walk's, for its tests.

use crate::entry::Stored;
use crate::lists::Lists;
use crate::verdict::Verdict;

/// The placements of the whole walk in turn, each saying whether it completes a build.
///
/// Each placement hands on a list of the entries that are left.
pub fn placements(lists: &Lists) -> Vec<bool> {
    let left: Vec<Stored> = (0..lists.words.len()).map(|i| lists.get(i)).collect();
    let mut made = Vec::new();
    walk_over(&left, None, 0, 1 << (2 * (lists.l - 1)), &mut made);
    made
}

/// Walks over the entries that are left, from this place on.
fn walk_over(left: &[Stored], last: Option<u32>, place: u16, tails: u32, made: &mut Vec<bool>) {
    let mut candidates: Vec<(u32, u16, usize)> = Vec::new();
    for (i, entry) in left.iter().enumerate() {
        let holds = entry.one <= place && place <= entry.two;
        let overlaps = last.is_none_or(|last| last % tails == entry.word / 4);
        let mut others = left.iter().enumerate().filter(|&(j, _)| j != i);
        if holds && overlaps && others.all(|(_, other)| other.two > place) {
            candidates.push((entry.word, entry.two, i));
        }
    }
    // What is left keeps its order, so that a lower index stays lower.
    candidates.sort_unstable();
    candidates.dedup_by_key(|candidate| candidate.0);
    for (word, _, i) in candidates {
        let mut rest = left.to_vec();
        rest.remove(i);
        made.push(rest.is_empty());
        walk_over(&rest, Some(word), place + 1, tails, made);
    }
}

/// The verdict of these placements, and how many there are up to it.
pub fn verdict(made: &[bool]) -> (Verdict, u32) {
    let mut completing = (1..).zip(made).filter(|&(_, &completes)| completes);
    match (completing.next(), completing.next()) {
        (None, _) => (Verdict::None, made.len() as u32),
        (Some(_), None) => (Verdict::Sole, made.len() as u32),
        (Some(_), Some((count, _))) => (Verdict::Several, count),
    }
}
