//! The walk in plain C, as `c/walk.c` has it.

use second::lists::Lists;
use second::numbers::{MOST_ENTRIES, SPAN, SPAN_WIDTH};
use second::verdict::Verdict;

/// The most entries of a card.
const MOST: usize = MOST_ENTRIES as usize;
/// The most slots of the tables.
const SLOTS: usize = MOST * SPAN_WIDTH as usize;

/// The tables that the walk reads, as C lays them out.
#[repr(C)]
#[derive(Clone, Debug, PartialEq, Eq)]
pub struct Tables {
    starts: [u16; MOST + 1],
    slots: [u16; SLOTS],
}

impl Tables {
    /// Tables that are not filled.
    pub fn empty() -> Tables {
        Tables {
            starts: [0; MOST + 1],
            slots: [0; SLOTS],
        }
    }
}

/// The answer, as C lays it out.
#[repr(C)]
#[derive(Default)]
struct Answer {
    verdict: u32,
    placements: u32,
}

extern "C" {
    fn c_prepare(
        l: usize,
        m: usize,
        words: *const u32,
        ones: *const u16,
        twos: *const u16,
        tables: *mut Tables,
    );
    fn c_walk(
        l: usize,
        m: usize,
        words: *const u32,
        ones: *const u16,
        twos: *const u16,
        budget: u32,
        out: *mut u32,
        answer: *mut Answer,
    );
}

/// Span lists that were found sound, which is all that the C code takes.
#[derive(Clone, Copy)]
pub struct Sound<'a>(&'a Lists);

impl<'a> Sound<'a> {
    /// These lists, if they are span lists and `second` finds them sound.
    pub fn new(lists: &'a Lists) -> Option<Sound<'a>> {
        let is_span = lists.kind == usize::from(SPAN);
        (is_span && lists.admitted().is_ok()).then_some(Sound(lists))
    }

    /// Fills the tables alone.
    pub fn prepare(self, tables: &mut Tables) {
        let Lists {
            l,
            words,
            ones,
            twos,
            ..
        } = self.0;
        let m = words.len();
        // SAFETY: the lists are sound, so that each has m elements, each span lies
        // below m, and m and the width of each span are within the numbers that
        // the C code is compiled with; the tables are lent to the call alone and
        // laid out as C declares them.
        unsafe {
            c_prepare(*l, m, words.as_ptr(), ones.as_ptr(), twos.as_ptr(), tables);
        }
    }

    /// Prepares the tables and walks, and gives the verdict and the placements.
    ///
    /// For Sole and Several the words of the first build stand at the start of
    /// the output.
    pub fn walk(self, budget: u32, out: &mut [u32]) -> (Verdict, u32) {
        let Lists {
            l,
            words,
            ones,
            twos,
            ..
        } = self.0;
        let m = words.len();
        assert!(out.len() >= m, "an output of {}", out.len());
        let mut answer = Answer::default();
        // SAFETY: as for `prepare`; the output has m slots and is lent to the
        // call alone.
        unsafe {
            c_walk(
                *l,
                m,
                words.as_ptr(),
                ones.as_ptr(),
                twos.as_ptr(),
                budget,
                out.as_mut_ptr(),
                &mut answer,
            );
        }
        let verdict = match answer.verdict {
            1 => Verdict::Sole,
            2 => Verdict::Several,
            3 => Verdict::None,
            _ => Verdict::Unsettled,
        };
        (verdict, answer.placements)
    }
}

#[cfg(test)]
mod tests {
    use super::*;
    use second::cards::Random;
    use second::spans::{any_long, any_spans, misread, sequence, widest, words_in};
    use second::walk::counted::Counted;

    /// Holds the C walk to the answer and the words of `second`, and gives the placements.
    fn hold(lists: &Lists, budget: u32) -> u32 {
        let found = lists.find(budget);
        let mut out = vec![7; lists.words.len() + 3];
        let mut wanted = out.clone();
        wanted[..found.words.len()].copy_from_slice(&found.words);
        let sound = Sound::new(lists).expect("sound lists");
        let by_c = sound.walk(budget, &mut out);
        let by_second = (found.verdict, found.placements);
        assert_eq!(
            (by_c, out),
            (by_second, wanted),
            "budget {budget}, {lists:?}"
        );
        found.placements
    }

    #[test]
    fn any_lists_at_budgets_around_their_own_count() {
        let mut random = Random::new(1);
        for _ in 0..6000 {
            let lists = any_spans(&mut random);
            let own = hold(&lists, 2000);
            for budget in [own, own.saturating_sub(1), own / 2, 0] {
                hold(&lists, budget);
            }
        }
    }

    #[test]
    fn lists_that_are_not_sound_are_not_taken() {
        let mut lists = any_spans(&mut Random::new(3));
        assert!(Sound::new(&lists).is_some());
        lists.kind = 1;
        assert!(Sound::new(&lists).is_none());
        lists.kind = 2;
        lists.twos[0] = lists.words.len() as u16;
        assert!(Sound::new(&lists).is_none());
    }

    #[test]
    fn wide_spans_of_few_words() {
        let mut random = Random::new(2);
        for turn in 0..600 {
            let l = random.between(2, 4);
            let m = random.between(1, 40);
            let words = match turn % 2 {
                0 => words_in(&sequence(&mut random, l, m, 2), l),
                _ => misread(&mut random, l, m, 2),
            };
            let lists = widest(&mut random, l, &words);
            hold(&lists, 3000);
        }
    }

    #[test]
    fn long_walks_as_they_are_counted() {
        let mut random = Random::new(4);
        for _ in 0..60 {
            let lists = any_long(&mut random);
            let (profile, entries) = lists.admitted().expect("sound lists");
            let walk = Counted::new(profile.l, &entries);
            let own = walk.placements().unwrap_or(u32::MAX);
            for budget in [own, own.saturating_sub(1), 1_000_000].map(|n| n.min(3_000_000)) {
                let found = walk.within(budget);
                let mut out = vec![7; lists.words.len()];
                let by_c = Sound::new(&lists)
                    .expect("sound lists")
                    .walk(budget, &mut out);
                assert_eq!(
                    by_c,
                    (found.verdict, found.placements),
                    "{budget} {lists:?}"
                );
                if !found.words.is_empty() {
                    assert_eq!(out, found.words, "{lists:?}");
                }
            }
        }
    }

    #[test]
    fn the_tables_of_the_s1_card() {
        let mut lists = Lists::empty(2, 2);
        lists.words = vec![1, 4, 2, 8];
        lists.ones = vec![0, 1, 0, 1];
        lists.twos = vec![2, 3, 2, 3];
        let mut tables = Tables::empty();
        Sound::new(&lists)
            .expect("sound lists")
            .prepare(&mut tables);
        assert_eq!(tables.starts[..5], [0, 2, 6, 10, 12]);
        assert_eq!(tables.slots[..12], [0, 2, 0, 2, 1, 3, 0, 2, 1, 3, 1, 3]);
    }
}
