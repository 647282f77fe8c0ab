//! The records of lists of the older readers: importing, exporting, and the one after the other.

mod tally;

use second::lists::Lists;
use second::probe_list::{export, import};
use second::reader;
use second::stored::BYTE_BEFORE;
use second::texts::text_of;

use super::{beginning, called, words, Called, Record, LONGEST_CARD};

pub use tally::Listings;

/// The most bytes that a list may have, and an output for one.
pub const LONGEST_TEXT: usize = 16_384;
/// The most bytes that an output for a card may have.
pub const LONGEST_ROOM: usize = LONGEST_CARD;

impl Record {
    /// Records importing a list into an output of this room, and gives the outcome.
    pub fn import(&mut self, list: &[u8], room: usize) -> Called {
        assert!(list.len() <= LONGEST_TEXT, "a list of {}", list.len());
        assert!(room <= LONGEST_ROOM, "an output of {room}");
        self.put_tag_and_size(b'I', list);
        self.put(&(room as u16).to_le_bytes());
        self.put(list);
        self.listings.imports += 1;
        let called = called(room, |out| import(list, out));
        self.called("card", called)
    }

    /// Records exporting a card into an output of this room, and gives the outcome.
    pub fn export(&mut self, card: &[u8], room: usize) -> Called {
        assert!(room <= LONGEST_TEXT, "an output of {room}");
        self.put_size(b'X', card);
        self.put(&(room as u16).to_le_bytes());
        self.put(card);
        self.listings.exports += 1;
        let called = called(room, |out| export(card, out));
        self.called("list", called)
    }

    /// Records exporting a card and importing its list.
    ///
    /// The line is made from the card alone: it must come out as its own
    /// bytes, and the program stops if it does not.
    pub fn again(&mut self, card: &[u8]) {
        let own = own_bytes(card);
        if own.0.is_ok() {
            _ = hold_again(card, &own);
        }
        self.put_size(b'Y', card);
        self.put(card);
        self.listings.agains += 1;
        _ = self.called("again", own);
    }

    /// Records writing the card of sound lists, exporting it, and importing its list.
    ///
    /// The line is made from the text and the card of the lists, and the
    /// program stops if another comes.
    pub fn again_from(&mut self, lists: &Lists) {
        let card = lists.card().expect("sound lists");
        let own = own_bytes(&card);
        let list = hold_again(&card, &own);
        self.stdin.push(b'Z');
        for number in [lists.kind, lists.l] {
            self.put(&(number as u64).to_le_bytes());
        }
        self.put(&(lists.words.len() as u16).to_le_bytes());
        self.put_elements(lists);
        self.listings.agains += 1;
        self.stdout.push_str(&words("list", &list));
        self.stdout.push(' ');
        _ = self.called("again", own);
    }

    /// Puts the line of an outcome and counts it.
    fn called(&mut self, name: &str, called: Called) -> Called {
        self.line(&words(name, &called));
        self.listings.count(&called);
        called
    }
}

/// What must come of a card by way of its list: its own bytes, if it is admitted.
fn own_bytes(card: &[u8]) -> Called {
    match reader::admit(card) {
        Ok(_) => (Ok(card.len()), beginning(card, LONGEST_ROOM)),
        Err(refusal) => (Err(refusal), vec![BYTE_BEFORE; LONGEST_ROOM]),
    }
}

/// Holds an admitted card to its text, and to its own bytes after that, and gives the outcome that its export must have.
fn hold_again(card: &[u8], own: &Called) -> Called {
    let lists = Lists::of_card(card).expect("an admitted card");
    let text = text_of(&lists);
    let wanted = (Ok(text.len()), beginning(&text, LONGEST_TEXT));
    let list = called(LONGEST_TEXT, |out| export(card, out));
    assert!(list == wanted, "the list of {lists:?}");
    let again = called(LONGEST_ROOM, |out| import(&text, out));
    assert!(again == *own, "the card of the list of {lists:?}");
    wanted
}
