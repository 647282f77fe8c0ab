//! Tests of the layers.

use super::layers;
use crate::arrangements::builds;
use crate::cards::Random;
use crate::entry::Stored;
use crate::lists::Lists;
use crate::narrow::{any_narrow, any_widest, crowded, few_words, overcrowded, widest, without_end};
use crate::numbers::SPAN;
use crate::spans::{around, disturbed, sequence, with_build, words_in};
use crate::tables::tables;
use crate::verdict::{Found, Verdict};
use crate::walk::counted::Counted;

/// The verdicts that the layers give.
const VERDICTS: [Verdict; 3] = [Verdict::Sole, Verdict::Several, Verdict::None];

/// How often each verdict came.
#[derive(Default)]
struct Came([usize; VERDICTS.len()]);

impl Came {
    /// Counts a verdict.
    fn count(&mut self, verdict: Verdict) {
        for (counted, count) in VERDICTS.iter().zip(&mut self.0) {
            *count += usize::from(*counted == verdict);
        }
    }

    /// Holds each verdict to more than so many times.
    fn hold(&self, times: usize) {
        assert!(self.0.iter().all(|&came| came > times), "{:?}", self.0);
    }
}

/// The span lists of words of two letters with these entries: word, first place and last place.
fn spans(entries: &[(u32, u16, u16)]) -> Lists {
    let mut lists = Lists::empty(usize::from(SPAN), 2);
    for &(word, one, two) in entries {
        lists.push(Stored { word, one, two });
    }
    lists
}

/// What the layers find of sound lists.
fn found(lists: &Lists) -> Found {
    let (profile, entries) = lists.admitted().expect("sound lists");
    layers(profile.l, &entries)
}

/// Holds the lists to this verdict and this build.
fn hold(lists: &Lists, verdict: Verdict, build: &[u32]) {
    assert_eq!(found(lists), Found::new(verdict, 0, build), "{lists:?}");
}

/// Holds small lists to all their arrangements, and gives the verdict.
fn hold_to_arrangements(lists: &Lists) -> Verdict {
    let all = builds(lists);
    let verdict = Verdict::of_count(all.len());
    let first = all.first().cloned().unwrap_or_default();
    hold(lists, verdict, &first);
    verdict
}

/// Holds lists to their walk, where any budget settles it, and gives the verdict.
fn hold_to_walk(lists: &Lists) -> Verdict {
    let (profile, entries) = lists.admitted().expect("sound lists");
    let walked = Counted::new(profile.l, &entries).within(u32::MAX);
    let found = found(lists);
    if walked.verdict != Verdict::Unsettled {
        let wanted = Found::new(walked.verdict, 0, &walked.words);
        assert_eq!(found, wanted, "{lists:?}");
    }
    found.verdict
}

#[test]
fn the_span_tables() {
    // The words of ACAGA and of AAAA.
    let [acaga, aaaa] = [&[1, 4, 2, 8][..], &[0, 0, 0]];
    let wanted: [&[u32]; 5] = [acaga, acaga, &[], aaaa, &[]];
    for (table, words) in tables()[7..].iter().zip(wanted) {
        hold(&table.lists, table.verdict, words);
        assert_eq!(hold_to_arrangements(&table.lists), table.verdict);
        assert_eq!(hold_to_walk(&table.lists), table.verdict);
    }
}

#[test]
fn equal_words_are_no_choice() {
    // Four entries of one word in one span: 24 arrangements, and one build.
    hold(&spans(&[(0, 0, 3); 4]), Verdict::Sole, &[0; 4]);
    // The later entry ends first; by index one would be left behind.
    let ends = spans(&[(0, 0, 3), (0, 0, 2), (0, 0, 1), (0, 0, 0)]);
    hold(&ends, Verdict::Sole, &[0; 4]);
    // ACACA: either AC may stand at 0 and at 2, and either CA at 1 and at 3.
    let twice = spans(&[(1, 0, 2), (4, 1, 3), (1, 0, 2), (4, 1, 3)]);
    hold(&twice, Verdict::Sole, &[1, 4, 1, 4]);
    // ACAAC or AACAC or ACACAA and so on: AC, CA and AA by turns.
    let mixed = spans(&[(1, 0, 3), (4, 0, 3), (1, 0, 3), (0, 0, 3)]);
    assert_eq!(hold_to_arrangements(&mixed), Verdict::Several);
}

#[test]
fn rows_that_part_and_meet_again() {
    // Two copies of S1: ACAGA or AGACA, then the same again, and all four are builds.
    let s1 = [(1, 0, 2), (4, 1, 3), (2, 0, 2), (8, 1, 3)];
    let again = s1.map(|(word, one, two)| (word, one + 4, two + 4));
    let both = spans(&[s1, again].concat());
    hold(&both, Verdict::Several, &[1, 4, 2, 8, 1, 4, 2, 8]);
    // Nothing follows either of the two: a word of Ts is due at the end.
    let hopeless = spans(&[&s1[..], &[(15, 4, 4)]].concat());
    hold(&hopeless, Verdict::None, &[]);
}

#[test]
fn every_arrangement_of_small_cards() {
    let mut random = Random::new(61);
    let mut came = Came::default();
    for _ in 0..8000 {
        let l = random.pick(&[2, 2, 2, 3]);
        let m = random.pick(&[1, 2, 3, 4, 5, 6, 7, 8, 8, 8]);
        let letters = random.between(1, 3);
        let wide = random.pick(&[1, 2, 3, 4, 4, 4]);
        let lists = match random.below(3) {
            0 => with_build(&mut random, l, m, letters, wide),
            1 => disturbed(&mut random, l, m, letters, wide),
            _ => {
                let words = words_in(&sequence(&mut random, l, m, letters), l);
                widest(&mut random, l, &words)
            }
        };
        came.count(hold_to_arrangements(&lists));
    }
    came.hold(200);
}

#[test]
fn every_arrangement_where_all_is_drawn() {
    let mut random = Random::new(62);
    let mut came = Came::default();
    for _ in 0..20_000 {
        came.count(hold_to_arrangements(&few_words(&mut random)));
    }
    came.hold(50);
}

#[test]
fn the_walk_where_it_settles() {
    let mut random = Random::new(63);
    let mut came = Came::default();
    for _ in 0..3000 {
        came.count(hold_to_walk(&any_narrow(&mut random)));
        came.count(hold_to_walk(&any_widest(&mut random)));
    }
    came.hold(500);
}

#[test]
fn as_many_spans_over_a_place_as_there_may_be() {
    let mut random = Random::new(64);
    for _ in 0..400 {
        let (l, letters) = (random.between(2, 3), random.between(1, 3));
        let lists = crowded(&mut random, l, 7, letters);
        assert_ne!(hold_to_arrangements(&lists), Verdict::None);
        let m = random.between(7, 40);
        let lists = crowded(&mut random, l, m, letters);
        assert_ne!(hold_to_walk(&lists), Verdict::None);
        let lists = overcrowded(&mut random, l, 8, letters);
        assert_eq!(hold_to_arrangements(&lists), Verdict::None);
        let lists = overcrowded(&mut random, l, m + 1, letters);
        hold(&lists, Verdict::None, &[]);
    }
}

#[test]
fn all_entries_over_one_place() {
    // A full card whose every entry has the same four places.
    hold(&spans(&[(0, 100, 103); 504]), Verdict::None, &[]);
    // Five of one word for four places, and the fifth place empty.
    hold(&spans(&[(0, 0, 3); 5]), Verdict::None, &[]);
}

#[test]
fn full_cards() {
    let mut random = Random::new(65);
    let equal = around(&mut random, 2, &[0; 504], 4, 4);
    hold(&equal, Verdict::Sole, &[0; 504]);
    // Every place but the last has words to try, and no budget reaches to the end.
    let hopeless = without_end(&mut random, 2, 504);
    let (profile, entries) = hopeless.admitted().expect("sound lists");
    assert_eq!(Counted::new(profile.l, &entries).placements(), None);
    hold(&hopeless, Verdict::None, &[]);
}
