//! Cards that are refused: by the reader in its order, and span cards by 5 after it.

use second::cards::{any_card, Draft};
use second::lists::Lists;
use second::numbers::BLOCK;
use second::profile::Kind;
use second::reader;

use crate::cases::ladders::{spoil_card, CARD_FAULTS};
use crate::cases::{Cases, KINDS};

impl Cases {
    /// All cards that are refused, and cards of any sort.
    pub(super) fn faulty_cards(&mut self) {
        for kind in KINDS {
            self.cut_and_longer(kind);
            self.edges_of_numbers(kind);
        }
        for rung in 0..CARD_FAULTS {
            self.faults_together(Kind::Span, &[rung]);
        }
        for rung in 1..CARD_FAULTS {
            let kind = self.random.pick(&KINDS);
            self.faults_together(kind, &[rung - 1, rung]);
        }
        for (l, m) in [(2, 1), (12, 2), (3, 63), (7, 64)] {
            let card = Draft::sound(&mut self.random, Kind::Span, l, m).lay_out();
            self.refused_card(&card, 5, 0);
        }
        for _ in 0..25 {
            self.any_card_counted();
        }
    }

    /// Cards that are cut, and bytes after the card.
    fn cut_and_longer(&mut self, kind: Kind) {
        let card = Draft::sound(&mut self.random, kind, 3, 5).lay_out();
        for cut in [0, 1, 6, BLOCK - 1] {
            self.refused_card(&card[..cut], 1, 0);
        }
        for cut in [BLOCK, BLOCK + 1, card.len() - 1] {
            self.refused_card(&card[..cut], 9, 0);
        }
        for later in [&[0][..], &[10], &card[..BLOCK]] {
            self.refused_card(&[&card, later].concat(), 9, 0);
        }
    }

    /// l and m beside their limits, and the wrong entry at the end of a full card.
    fn edges_of_numbers(&mut self, kind: Kind) {
        let sound = Draft::sound(&mut self.random, kind, 2, 2);
        for l in [0, 1, 13, 255] {
            let draft = Draft { l, ..sound.clone() };
            self.refused_card(&draft.lay_out(), 6, 0);
        }
        for m in [0, 505, 65_535] {
            let draft = Draft { m, ..sound.clone() };
            self.refused_card(&draft.lay_out(), 7, 0);
        }
        for number in [0, 3] {
            let mut draft = sound.clone();
            draft.kind = number;
            self.refused_card(&draft.lay_out(), 5, 0);
        }
        let mut full = Draft::sound(&mut self.random, kind, 9, 504);
        let number = match kind {
            Kind::Pair => {
                full.entries[503].one = 504;
                11
            }
            Kind::Span => {
                full.entries[503].word = 1 << 18;
                10
            }
        };
        self.refused_card(&full.lay_out(), number, 503);
    }

    /// Records a card with the chosen faults of the ladder, of which the lowest comes first.
    fn faults_together(&mut self, kind: Kind, chosen: &[usize]) {
        let mut card = Draft::sound(&mut self.random, kind, 3, 65).lay_out();
        let (number, place) = spoil_card(&mut card, chosen);
        self.refused_card(&card, number, place);
    }

    /// Records a card of any sort: where it is refused, as the reader of `second` refuses it, or as a span card by 5.
    fn any_card_counted(&mut self) {
        // A full card is long, so that a shorter one is drawn instead.
        let mut card = any_card(&mut self.random);
        while card.len() > 3 * BLOCK {
            card = any_card(&mut self.random);
        }
        match reader::admit(&card) {
            Err(refusal) => self.refused_card(&card, refusal.number(), refusal.place),
            Ok(profile) if profile.kind == Kind::Span => self.refused_card(&card, 5, 0),
            Ok(_) => {
                let lists = Lists::of_card(&card).expect("a card that is admitted");
                _ = self.counted_card(&lists);
            }
        }
    }
}
