//! Lists that are refused, in the order of their tests, and lists of a span card by 5 after it.

use second::lists::{any_lists, odd_numbers, Lists};
use second::numbers::NO_PLACE;
use second::profile::Kind;

use crate::cases::ladders::{spoil_lists, LISTS_FAULTS};
use crate::cases::{Cases, KINDS};

impl Cases {
    /// All lists that are refused, and lists of any sort.
    pub(super) fn faulty_lists(&mut self) {
        self.odd_kinds_and_letters();
        for kind in KINDS {
            self.edges_of_lengths(kind);
            self.edges_of_counts(kind);
            self.edges_of_words(kind);
            self.edges_of_places(kind);
        }
        for low in 0..LISTS_FAULTS {
            for high in low..LISTS_FAULTS {
                let kind = self.random.pick(&KINDS);
                self.list_faults_together(kind, [low, high]);
            }
            self.list_faults_together(Kind::Span, [low, low]);
        }
        for (l, m) in [(2, 1), (12, 2), (3, 63), (5, 504)] {
            let spans = Lists::sound(&mut self.random, Kind::Span, l, m);
            self.refused_lists(&spans, 5, 0);
        }
        for _ in 0..40 {
            self.any_lists_counted();
        }
    }

    /// Kinds and ls of every size: 5 for the number of a kind comes before 6, and 5 for spans after it.
    fn odd_kinds_and_letters(&mut self) {
        for number in odd_numbers() {
            // Places 0 and 1 of two are sound on either kind.
            let mut lists = self.at_place_0(Kind::Span, 2);
            lists.twos = vec![1; 2];
            let sound = self.random.pick(&[1, 2]);
            for (kind, l) in [(number, 2), (sound, number)] {
                (lists.kind, lists.l) = (kind, l);
                match (kind, l) {
                    (1, 2..=12) => _ = self.counted(&lists),
                    (2, 2..=12) => self.refused_lists(&lists, 5, 0),
                    (1..=2, _) => self.refused_lists(&lists, 6, 0),
                    (_, _) => self.refused_lists(&lists, 5, 0),
                }
            }
        }
    }

    /// Each list longer than the others, or shorter, from none up to more than a card has.
    fn edges_of_lengths(&mut self, kind: Kind) {
        for (m, n) in [(0, 1), (5, 6)] {
            for (words, ones, twos) in [
                (n, m, m),
                (m, n, m),
                (m, m, n),
                (m, n, n),
                (n, m, n),
                (n, n, m),
            ] {
                let mut lists = self.at_place_0(kind, n);
                lists.resize(words, ones, twos);
                self.refused_lists(&lists, 13, 0);
            }
        }
        let mut lists = self.at_place_0(kind, 505);
        lists.resize(505, 504, 505);
        self.refused_lists(&lists, 13, 0);
    }

    /// Counts beside their limits, which come before what is wrong with an entry.
    fn edges_of_counts(&mut self, kind: Kind) {
        for m in [0, 505] {
            let lists = self.at_place_0(kind, m);
            self.refused_lists(&lists, 7, 0);
        }
        let mut lists = self.at_place_0(kind, 600);
        lists.words[0] = u32::MAX;
        self.refused_lists(&lists, 7, 0);
    }

    /// A word of 4^l is refused, and on lists of a span card 4^l−1 gets on to 5.
    fn edges_of_words(&mut self, kind: Kind) {
        for l in [2, 3, 7, 11, 12] {
            let mut lists = Lists::sound(&mut self.random, kind, l, 3);
            let i = self.random.below(3);
            lists.words[i] = (1 << (2 * l)) - 1;
            match kind {
                Kind::Pair => _ = self.counted(&lists),
                Kind::Span => self.refused_lists(&lists, 5, 0),
            }
            for word in [1 << (2 * l), lists.words[i] | 1 << 31] {
                lists.words[i] = word;
                self.refused_lists(&lists, 10, i);
            }
        }
    }

    /// Places beside their limits, and the limits themselves.
    fn edges_of_places(&mut self, kind: Kind) {
        let both = [(20, NO_PLACE), (19, 20), (NO_PLACE, NO_PLACE), (1, 0)];
        let (wrong, right) = match kind {
            Kind::Pair => ([(0, 0), (19, 19)], [(19, NO_PLACE), (0, 19)]),
            Kind::Span => ([(0, NO_PLACE), (7, 15)], [(19, 19), (7, 14)]),
        };
        let sound = Lists::sound(&mut self.random, kind, 4, 20);
        for (one, two) in both.into_iter().chain(wrong) {
            let i = self.random.below(20);
            let mut lists = sound.clone();
            (lists.ones[i], lists.twos[i]) = (one, two);
            self.refused_lists(&lists, 11, i);
        }
        for (one, two) in right {
            let mut lists = sound.clone();
            (lists.ones[0], lists.twos[0]) = (one, two);
            match kind {
                Kind::Pair => _ = self.counted(&lists),
                Kind::Span => self.refused_lists(&lists, 5, 0),
            }
        }
    }

    /// Records lists with two faults of the ladder, of which the lower comes first, or with one.
    fn list_faults_together(&mut self, kind: Kind, [low, high]: [usize; 2]) {
        let mut lists = Lists::sound(&mut self.random, kind, 3, 5);
        let (number, place) = spoil_lists(&mut lists, [low, high]);
        self.refused_lists(&lists, number, place);
    }

    /// Records lists of any sort: where they are refused, as the writer of `second` refuses them, or by 5.
    fn any_lists_counted(&mut self) {
        // Long lists take much room, so that shorter ones are drawn instead.
        let mut lists = any_lists(&mut self.random);
        while lists.words.len().max(lists.ones.len()) > 70 {
            lists = any_lists(&mut self.random);
        }
        match lists.card() {
            Err(refusal) => self.refused_lists(&lists, refusal.number(), refusal.place),
            Ok(_) if lists.kind == 2 => self.refused_lists(&lists, 5, 0),
            Ok(_) => _ = self.counted(&lists),
        }
    }

    /// Lists whose entries have words that are drawn, and place 0 alone.
    fn at_place_0(&mut self, kind: Kind, m: usize) -> Lists {
        let two = match kind {
            Kind::Pair => NO_PLACE,
            Kind::Span => 0,
        };
        let mut lists = Lists::empty(usize::from(kind.number()), 2);
        lists.words = (0..m).map(|_| self.random.below(16) as u32).collect();
        lists.ones = vec![0; m];
        lists.twos = vec![two; m];
        lists
    }
}
