//! Cards that the reader refuses: in its order, and before 12, before 5 for pairs and before 30.

use second::cards::{any_card, Draft};
use second::lists::Lists;
use second::narrow::WIDE;
use second::numbers::BLOCK;
use second::profile::Kind;
use second::reader;
use second::spans::with_build;
use second::stored::LONGEST_OUTPUT;

use crate::cases::ladders::{spoil_card, CARD_FAULTS};
use crate::cases::{Cases, KINDS};

impl Cases {
    /// All cards that the reader refuses, and cards of any sort.
    pub(super) fn wrong_cards(&mut self) {
        self.cut();
        for rung in 0..CARD_FAULTS {
            // Alone: the spans are narrow, and there is room.
            let lists = with_build(&mut self.random, 3, 65, 4, WIDE);
            let mut card = lists.card().expect("sound lists");
            let wanted = spoil_card(&mut card, &[rung]);
            self.refuses_card(&card, LONGEST_OUTPUT, wanted);
            // With a later one, and with too little room, on a pair card or one of spans of any width.
            let kind = self.random.pick(&KINDS);
            let mut card = Draft::sound(&mut self.random, kind, 3, 65).lay_out();
            let later = self.random.between(rung, CARD_FAULTS - 1);
            let wanted = spoil_card(&mut card, &[rung, later]);
            let room = self.random.pick(&[0, 66]);
            self.refuses_card(&card, room, wanted);
        }
        for _ in 0..14 {
            self.any_card_settled();
        }
    }

    /// Cards that are cut, and bytes after the card.
    fn cut(&mut self) {
        let lists = with_build(&mut self.random, 3, 5, 4, WIDE);
        let card = lists.card().expect("sound lists");
        for cut in [0, 1, BLOCK - 1] {
            let room = self.random.pick(&[0, LONGEST_OUTPUT]);
            self.refuses_card(&card[..cut], room, (1, 0));
        }
        for cut in [BLOCK, card.len() - 1] {
            let room = self.random.pick(&[0, LONGEST_OUTPUT]);
            self.refuses_card(&card[..cut], room, (9, 0));
        }
        for later in [&[10][..], &card[..BLOCK]] {
            self.refuses_card(&[&card, later].concat(), LONGEST_OUTPUT, (9, 0));
        }
    }

    /// Records a card of any sort: where the reader of `second` refuses it, as that does.
    fn any_card_settled(&mut self) {
        // A full card is long, so that a shorter one is drawn instead.
        let mut card = any_card(&mut self.random);
        while card.len() > 2 * BLOCK {
            card = any_card(&mut self.random);
        }
        let profile = match reader::admit(&card) {
            Ok(profile) => profile,
            Err(refusal) => {
                let wanted = (refusal.number(), refusal.place);
                return self.refuses_card(&card, LONGEST_OUTPUT, wanted);
            }
        };
        let lists = Lists::of_card(&card).expect("a card that is admitted");
        let room = self.random.pick(&[0, LONGEST_OUTPUT]);
        let mut places = lists.ones.iter().zip(&lists.twos);
        match places.position(|(one, two)| two - one >= WIDE as u16) {
            _ if room == 0 => self.refuses_card(&card, room, (12, 0)),
            _ if profile.kind == Kind::Pair => self.refuses_card(&card, room, (5, 0)),
            Some(wider) => self.refuses_card(&card, room, (30, wider)),
            None => _ = self.settled_card_in(room, &lists),
        }
    }
}
