//! Calls that import lists of the older readers.

use beside::{firmware, independent};
use second::cards::Random;
use second::for_builds::any_room;
use second::numbers::BLOCK;
use second::texts::{any_text, damage};

use crate::lent::Lent;
use crate::tally::Operation;
use crate::{difference, hex, output_differs, Soak};

/// The damaged copies of each text.
const COPIES: usize = 2;
/// Room for any card.
const AMPLE: usize = 9 * BLOCK;

impl Soak {
    /// Imports a text of its own, of which most are sound, and damaged copies of it.
    pub fn import_texts(&mut self, random: &mut Random) -> Result<(), String> {
        let sound = any_text(random);
        self.import_in_any_room(random, &sound)?;
        for _ in 0..COPIES {
            let mut text = sound.clone();
            for _ in 0..random.between(1, 3) {
                damage(random, &mut text);
            }
            self.import_in_any_room(random, &text)?;
        }
        Ok(())
    }

    /// Imports a text that has more lines than a count of two bytes can say.
    pub fn import_beyond_the_count(&mut self, random: &mut Random) -> Result<(), String> {
        const BEYOND: usize = 65_536 + 5;
        for line in ["AC\t1\n", "AC\t1-1\n"] {
            let text = line.repeat(BEYOND).into_bytes();
            self.import_once(random, &text, AMPLE)?;
            for last in ["AC\t0\n", "ACG\t1\n", "AC\t1,1\n", "\n", "AC\t1"] {
                let text = [&text, last.as_bytes()].concat();
                self.import_once(random, &text, AMPLE)?;
            }
        }
        Ok(())
    }

    /// Imports a text, mostly with room for any card.
    fn import_in_any_room(&mut self, random: &mut Random, text: &[u8]) -> Result<(), String> {
        let lines = text.iter().filter(|&&byte| byte == b'\n').count();
        let size = (1 + lines.div_ceil(63)) * BLOCK;
        let room = match random.below(2) {
            0 => AMPLE,
            _ => any_room(random, size),
        };
        self.import_once(random, text, room)
    }

    /// Imports a text on both sides and describes a difference, if there is one.
    fn import_once(&mut self, random: &mut Random, text: &[u8], room: usize) -> Result<(), String> {
        if self.is_done() {
            return Ok(());
        }
        let list = Lent::new(random, text);
        let mut out = Lent::drawn(random, room);
        let library = firmware::import(list.elements(), out.elements_mut());
        let second = independent::import(list.wanted(), out.wanted_mut());
        self.tally.count(Operation::Import, second.number);
        let differs = difference(library, second)
            .or_else(|| output_differs(&out))
            .or_else(|| list_changed(&list));
        match differs {
            None => Ok(()),
            Some(what) => Err(format!(
                "call {}: import a list of {} bytes into {room} bytes\n{what}\nlist {}",
                self.tally.calls(),
                text.len(),
                hex(text),
            )),
        }
    }
}

/// Says which byte of a list was changed, if there is one.
pub fn list_changed(list: &Lent<u8>) -> Option<String> {
    let at = list.differs()?;
    Some(format!(
        "byte {at} of the list was changed (guard bytes are outside it)"
    ))
}
