//! Lists of the older readers: imported, exported, and the one after the other.
//!
//! What a list must give is stated beside it, or comes from `judge`, which
//! reads it in another way; every list is held to `judge`.

mod bytes;
mod card_rules;
mod drawn;
mod exports;
mod judge;
mod marks;
mod numbers;
mod orders;
mod rooms;
mod texts;
mod vectors;

use second::refusal::{Reason, Refusal};
use second::stored::{is_untouched, BYTE_BEFORE};

use crate::cases::Cases;
use crate::record::{Called, LONGEST_ROOM};
use judge::judged;

/// A refusal's number and place.
type Refused = (u8, usize);

impl Cases {
    /// All cases of lists as texts.
    pub(super) fn listing(&mut self) {
        self.texts();
        self.bytes();
        self.numbers_and_words();
        self.marks_and_lengths();
        self.several_at_once();
        self.card_rules();
        self.rooms_of_lists();
        self.drawn_texts();
        self.exports();
        self.cards_of_the_vectors();
    }

    /// Records a list that must be refused with this number and place, whatever the room is.
    fn refuses_list(&mut self, list: impl AsRef<[u8]>, wanted: Refused) {
        let room = self.random.pick(&[0, 1024, LONGEST_ROOM, LONGEST_ROOM]);
        let called = self.import_in(list.as_ref(), room);
        hold_refused(&called, wanted);
    }

    /// Records a list that must be imported, and gives the card.
    fn imports(&mut self, list: impl AsRef<[u8]>) -> Vec<u8> {
        match self.import_in(list.as_ref(), LONGEST_ROOM) {
            (Ok(length), out) => out[..length].to_vec(),
            (Err(refusal), _) => panic!("{refusal:?} for a sound list"),
        }
    }

    /// Records importing a list, which must come to what `judge` says of it.
    fn import_in(&mut self, list: &[u8], room: usize) -> Called {
        let called = self.record.import(list, room);
        let (answer, out) = &called;
        let wanted = judged(list).and_then(|card| match card.len() > room {
            true => Err(number_and_place(Reason::Room.at(0))),
            false => Ok(card),
        });
        let shown = String::from_utf8_lossy(list);
        match wanted {
            Ok(card) => {
                let later = vec![BYTE_BEFORE; room - card.len()];
                assert_eq!(*answer, Ok(card.len()), "{shown:?}");
                assert!(*out == [card, later].concat(), "the card of {shown:?}");
            }
            Err(wanted) => {
                assert_eq!(answer.map_err(number_and_place), Err(wanted), "{shown:?}");
                assert!(is_untouched(out), "a refusal touched the output");
            }
        }
        called
    }
}

/// Holds an outcome to this refusal, with nothing touched.
fn hold_refused((answer, out): &Called, wanted: Refused) {
    let answer = answer.map_err(number_and_place);
    assert_eq!(answer, Err(wanted), "a refusal that must come");
    assert!(is_untouched(out), "a refusal touched the output");
}

/// The refusal's number and place.
fn number_and_place(refusal: Refusal) -> Refused {
    (refusal.number(), refusal.place)
}

/// Three lists in which this line is the first, a middle and the last one among sound ones, with its number.
fn at_each_line(line: &str) -> [(usize, String); 3] {
    let sound = "CA\t2\nCA\t1\n";
    [
        (1, format!("{line}{sound}{sound}")),
        (3, format!("{sound}{line}{sound}")),
        (5, format!("{sound}{sound}{line}")),
    ]
}
