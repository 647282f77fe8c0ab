//! Calls that export a card as a list of the older readers, and import it again.

use beside::answers::WriteAnswer;
use beside::{firmware, independent};
use second::cards::Random;
use second::for_builds::any_room;
use second::lists::Lists;
use second::numbers::BLOCK;
use second::reader;
use second::texts::text_of;

use crate::importing::list_changed;
use crate::lent::Lent;
use crate::tally::Operation;
use crate::{card_changed, difference, hex, output_differs, Soak};

impl Soak {
    /// Makes the exporting calls on this card: with any room, and, where it is admitted, there and back.
    pub fn export(&mut self, random: &mut Random, card: &Lent<u8>) -> Result<(), String> {
        let length = match Lists::of_card(card.elements()) {
            Ok(lists) => text_of(&lists).len(),
            Err(_) => 4,
        };
        let room = any_room(random, length);
        _ = self.export_once(random, card, room)?;
        match reader::admit(card.elements()) {
            Ok(_) => self.there_and_back(random, card, length),
            Err(_) => Ok(()),
        }
    }

    /// Exports a card on both sides, describes a difference, if there is one, and gives the library's text.
    fn export_once(
        &mut self,
        random: &mut Random,
        card: &Lent<u8>,
        room: usize,
    ) -> Result<Option<Vec<u8>>, String> {
        if self.is_done() {
            return Ok(None);
        }
        let mut out = Lent::drawn(random, room);
        let library = firmware::export(card.elements(), out.elements_mut());
        let second = independent::export(card.wanted(), out.wanted_mut());
        self.tally.count(Operation::Export, second.number);
        let differs = difference(library, second)
            .or_else(|| output_differs(&out))
            .or_else(|| card_changed(card));
        match differs {
            None => Ok(Some(out.elements()[..library.length].to_vec())),
            Some(what) => Err(format!(
                "call {}: export a card of {} bytes into {room} bytes\n{what}\ncard {}",
                self.tally.calls(),
                card.wanted().len(),
                hex(card.wanted()),
            )),
        }
    }

    /// Has the library export an admitted card, whose text has this length, and import what it wrote: the card's own bytes.
    fn there_and_back(
        &mut self,
        random: &mut Random,
        card: &Lent<u8>,
        length: usize,
    ) -> Result<(), String> {
        let room = length + random.pick(&[0, 1, 84]);
        let Some(text) = self.export_once(random, card, room)? else {
            return Ok(());
        };
        if self.is_done() {
            return Ok(());
        }
        self.tally.count(Operation::Import, 0);
        match imported_again(random, card.wanted(), &text) {
            None => Ok(()),
            Some(what) => Err(format!(
                "call {}: import what was exported of a card of {} bytes\n{what}\ncard {}",
                self.tally.calls(),
                card.wanted().len(),
                hex(card.wanted()),
            )),
        }
    }
}

/// Has the library import a text that it exported of this card, and describes what is not the card's own.
fn imported_again(random: &mut Random, card: &[u8], text: &[u8]) -> Option<String> {
    let list = Lent::new(random, text);
    let room = card.len() + random.pick(&[0, 1, BLOCK]);
    let mut out = Lent::drawn(random, room);
    out.wanted_mut()[..card.len()].copy_from_slice(card);
    let own = WriteAnswer {
        length: card.len(),
        ..WriteAnswer::default()
    };
    difference(firmware::import(list.elements(), out.elements_mut()), own)
        .or_else(|| output_differs(&out))
        .or_else(|| list_changed(&list))
}
