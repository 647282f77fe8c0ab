//! Calls that write FASTA records and read them.

use beside::answers::FastaAnswer;
use beside::{firmware, independent};
use second::cards::Random;
use second::for_builds::any_room;
use second::records::{
    any_bytes_for_letters, any_name, any_record, damage, letters_in_number, record_of,
};

use crate::lent::Lent;
use crate::tally::Operation;
use crate::{difference, hex, output_differs, Soak};

/// The damaged copies of each record.
const COPIES: usize = 3;
/// Room for any name that a record can have, and for any letters of one that is drawn.
const AMPLE: [usize; 2] = [40, 6000];

impl Soak {
    /// Writes a name and letters of its own, and reads a record of its own, of which most are sound, and damaged copies of it.
    pub fn fasta(&mut self, random: &mut Random) -> Result<(), String> {
        let (name, letters) = (any_name(random), any_bytes_for_letters(random));
        let length = record_of(&name, &letters).len();
        let room = match random.below(2) {
            0 => length,
            _ => any_room(random, length),
        };
        self.fasta_there_and_back(random, &name, &letters, room)?;
        let sound = any_record(random);
        self.read_in_any_rooms(random, &sound)?;
        for _ in 0..COPIES {
            let mut record = sound.clone();
            for _ in 0..random.between(1, 2) {
                damage(random, &mut record);
            }
            self.read_in_any_rooms(random, &record)?;
        }
        Ok(())
    }

    /// Calls with more letters than a count of two bytes can say.
    pub fn fasta_of_many_letters(&mut self, random: &mut Random) -> Result<(), String> {
        for number in [65_535, 65_536, 65_580, 200_000] {
            let mut letters = letters_in_number(random, number);
            let record = record_of(b"n", &letters);
            for room in [record.len(), record.len() - 1] {
                self.fasta_there_and_back(random, b"n", &letters, room)?;
            }
            for end in ["\n", "A\n", "x", ">m\nA\n"] {
                let record = [&record, end.as_bytes()].concat();
                self.read_fasta_once(random, &record, [1, number])?;
            }
            for rooms in [[1, number], [1, number - 1], [0, number]] {
                self.read_fasta_once(random, &record, rooms)?;
            }
            self.read_fasta_once(random, &record[..record.len() - 1], [1, number])?;
            letters[number - 1] = b'N';
            self.fasta_there_and_back(random, b"n", &letters, record.len())?;
        }
        Ok(())
    }

    /// Writes a name and letters on both sides, and has the library read what it wrote: the same name and letters.
    fn fasta_there_and_back(
        &mut self,
        random: &mut Random,
        name: &[u8],
        letters: &[u8],
        room: usize,
    ) -> Result<(), String> {
        let Some(record) = self.write_fasta_once(random, name, letters, room)? else {
            return Ok(());
        };
        if self.is_done() {
            return Ok(());
        }
        self.tally.count(Operation::ReadFasta, 0);
        match read_again(random, name, letters, &record) {
            None => Ok(()),
            Some(what) => Err(format!(
                "call {}: read what was written of a name and letters\n{what}\nname {}\nletters {}",
                self.tally.calls(),
                hex(name),
                hex(letters),
            )),
        }
    }

    /// Writes a name and letters on both sides, describes a difference, if there is one, and gives the library's record, if it wrote one.
    fn write_fasta_once(
        &mut self,
        random: &mut Random,
        name: &[u8],
        letters: &[u8],
        room: usize,
    ) -> Result<Option<Vec<u8>>, String> {
        if self.is_done() {
            return Ok(None);
        }
        let [lent_name, lent_letters] = [name, letters].map(|part| Lent::new(random, part));
        let mut out = Lent::drawn(random, room);
        let library = firmware::write_fasta(
            lent_name.elements(),
            lent_letters.elements(),
            out.elements_mut(),
        );
        let second = independent::write_fasta(name, letters, out.wanted_mut());
        self.tally.count(Operation::WriteFasta, second.number);
        let differs = difference(library, second)
            .or_else(|| output_differs(&out))
            .or_else(|| changed("name", &lent_name))
            .or_else(|| changed("letters", &lent_letters));
        match differs {
            None => {
                let is_written = library.number == 0;
                Ok(is_written.then(|| out.elements()[..library.length].to_vec()))
            }
            Some(what) => Err(format!(
                "call {}: write a FASTA record into {room} bytes\n{what}\nname {}\nletters {}",
                self.tally.calls(),
                hex(name),
                hex(letters),
            )),
        }
    }

    /// Reads a record, mostly with room for any name and any letters.
    fn read_in_any_rooms(&mut self, random: &mut Random, record: &[u8]) -> Result<(), String> {
        let is_letter = |byte: &&u8| b"ACGT".contains(byte);
        let name = record.iter().position(|&byte| byte == b'\n').unwrap_or(0);
        let letters = record[name..].iter().filter(is_letter).count();
        let rooms = match random.below(2) {
            0 => AMPLE,
            _ => [name.saturating_sub(1), letters].map(|length| any_room(random, length)),
        };
        self.read_fasta_once(random, record, rooms)
    }

    /// Reads a record on both sides and describes a difference, if there is one.
    fn read_fasta_once(
        &mut self,
        random: &mut Random,
        record: &[u8],
        rooms: [usize; 2],
    ) -> Result<(), String> {
        if self.is_done() {
            return Ok(());
        }
        let lent = Lent::new(random, record);
        let [mut name, mut letters] = rooms.map(|room| Lent::drawn(random, room));
        let library =
            firmware::read_fasta(lent.elements(), name.elements_mut(), letters.elements_mut());
        let second = independent::read_fasta(record, name.wanted_mut(), letters.wanted_mut());
        self.tally.count(Operation::ReadFasta, second.number);
        let differs = difference(library, second)
            .or_else(|| output_differs(&name))
            .or_else(|| output_differs(&letters))
            .or_else(|| changed("record", &lent));
        match differs {
            None => Ok(()),
            Some(what) => Err(format!(
                "call {}: read a FASTA record of {} bytes into {rooms:?} bytes\n{what}\nrecord {}",
                self.tally.calls(),
                record.len(),
                hex(record),
            )),
        }
    }
}

/// Has the library read a record that it wrote, and describes what is not the name and the letters.
fn read_again(random: &mut Random, name: &[u8], letters: &[u8], record: &[u8]) -> Option<String> {
    let lent = Lent::new(random, record);
    let [mut to_name, mut to_letters] = [name, letters].map(|part| {
        let room = part.len() + random.pick(&[0, 0, 1, 60]);
        let mut out = Lent::drawn(random, room);
        out.wanted_mut()[..part.len()].copy_from_slice(part);
        out
    });
    let own = FastaAnswer {
        name: name.len(),
        letters: letters.len(),
        ..FastaAnswer::default()
    };
    let library = firmware::read_fasta(
        lent.elements(),
        to_name.elements_mut(),
        to_letters.elements_mut(),
    );
    difference(library, own)
        .or_else(|| output_differs(&to_name))
        .or_else(|| output_differs(&to_letters))
        .or_else(|| changed("record", &lent))
}

/// Says which byte of what was only to be read was changed, if there is one.
fn changed(what: &str, lent: &Lent<u8>) -> Option<String> {
    let at = lent.differs()?;
    Some(format!(
        "byte {at} of the {what} was changed (guard bytes are outside it)"
    ))
}
