//! Calls that read a card.

use beside::{firmware, independent};
use second::cards::{any_index, put_index, put_right, Draft, Random};
use second::numbers::BLOCK;
use second::profile::Kind;
use second::reader;

use crate::lent::Lent;
use crate::tally::Operation;
use crate::{card_changed, difference, hex, Soak};

/// The operations that read a card.
const READING: [Operation; 5] = [
    Operation::Admit,
    Operation::Entry,
    Operation::Step,
    Operation::Companion,
    Operation::Fetch,
];

impl Soak {
    /// Makes reading calls on this card: each operation once, or some where it is refused.
    pub fn read(&mut self, random: &mut Random, card: &Lent<u8>) -> Result<(), String> {
        let is_admitted = reader::admit(card.elements()).is_ok();
        for operation in READING {
            if is_admitted || random.once_in(2) {
                let index = index_for(random, operation, card.elements());
                self.read_once(card, operation, index)?;
            }
        }
        Ok(())
    }

    /// Makes one call on both sides and describes a difference, if there is one.
    fn read_once(
        &mut self,
        card: &Lent<u8>,
        operation: Operation,
        index: usize,
    ) -> Result<(), String> {
        if self.is_done() {
            return Ok(());
        }
        let (number, differs) = compared(operation, card, index);
        self.tally.count(operation, number);
        match differs.or_else(|| card_changed(card)) {
            None => Ok(()),
            Some(what) => Err(format!(
                "call {}: {operation:?} with index {index} on a card of {} bytes\n{what}\ncard {}",
                self.tally.calls(),
                card.wanted().len(),
                hex(card.wanted()),
            )),
        }
    }

    /// Calls on an input with more blocks than an index of two bytes can count.
    pub fn run_beyond_the_index(&mut self, random: &mut Random) -> Result<(), String> {
        const LAST: usize = 65_535;
        let mut card = Draft::sound(random, Kind::Span, 4, 5).lay_out();
        card.resize((LAST + 4) * BLOCK, 0);
        // Block 65,535 is 255 up to its check, its index too: without remainders no sums are larger.
        card[LAST * BLOCK..][..BLOCK].fill(255);
        put_right(&mut card, LAST);
        // Block 65,537 carries the low bytes of its index, and block 65,538 a wrong check.
        put_index(&mut card, LAST + 2, 1);
        put_right(&mut card, LAST + 2);
        card[(LAST + 3) * BLOCK] = 1;
        let lent = Lent::new(random, &card);
        self.read_once(&lent, Operation::Admit, 0)?;
        for k in LAST - 1..=LAST + 4 {
            self.read_once(&lent, Operation::Companion, k)?;
            self.read_once(&lent, Operation::Fetch, k)?;
        }
        self.count(&lent)?;
        self.settle(random, &lent)?;
        self.export(random, &lent)
    }
}

/// A number for this operation: of a block mostly where a block is asked for.
fn index_for(random: &mut Random, operation: Operation, card: &[u8]) -> usize {
    let any = any_index(random, card);
    match operation {
        Operation::Companion | Operation::Fetch if !random.once_in(4) => {
            any % (card.len() / BLOCK + 1)
        }
        _ => any,
    }
}

/// The refusal's number, or 0, and both answers where they differ.
fn compared(operation: Operation, card: &Lent<u8>, index: usize) -> (usize, Option<String>) {
    let (by_library, by_second) = (card.elements(), card.wanted());
    match operation {
        Operation::Admit => {
            let second = independent::admit(by_second);
            let library = firmware::admit(by_library);
            (second.number, difference(library, second))
        }
        Operation::Entry => {
            let second = independent::entry(by_second, index);
            let library = firmware::entry(by_library, index);
            (second.number, difference(library, second))
        }
        Operation::Step => {
            let second = independent::step(by_second, index);
            let library = firmware::step(by_library, index);
            (second.number, difference(library, second))
        }
        Operation::Companion => {
            let second = independent::companion(by_second, index);
            let library = firmware::companion(by_library, index);
            (second.number, difference(library, second))
        }
        _ => {
            let second = independent::fetch(by_second, index);
            let library = firmware::fetch(by_library, index);
            // A part carries no number; the companion has it.
            let number = independent::companion(by_second, index).number;
            (number, difference(library, second))
        }
    }
}
