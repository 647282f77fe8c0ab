//! FASTA records: written and read back, and read.
//!
//! What a call must give is stated beside it, or comes from `judge`, which
//! finds it in another way; every call is held to `judge`.

mod breaks;
mod bytes;
mod drawn;
mod judge;
mod lengths;
mod orders;
mod texts;

use second::refusal::Refusal;

use crate::cases::Cases;
use crate::record::LONGEST_PART;
use judge::{judged_parts, judged_record, outcome};

/// A refusal's number and place.
type Refused = (u8, usize);

impl Cases {
    /// All cases of FASTA records.
    pub(super) fn fasta(&mut self) {
        self.lengths_and_rooms();
        self.names();
        self.bytes_of_records();
        self.breaks();
        self.odd_texts();
        self.faults_at_once();
        self.drawn_records();
    }

    /// Records a name and letters that must be refused with this number and place, whatever the room is.
    fn refuses_parts(&mut self, name: &[u8], letters: &[u8], wanted: Refused) {
        let room = self.random.pick(&[0, LONGEST_PART]);
        let answer = self.write_in(name, letters, room);
        assert_eq!(answer, Err(wanted), "a refusal that must come");
    }

    /// Records a record that must be refused with this number and place, whatever the rooms are.
    fn refuses_record(&mut self, record: impl AsRef<[u8]>, wanted: Refused) {
        let rooms = [(); 2].map(|()| self.random.pick(&[0, LONGEST_PART]));
        let answer = self.read_in(record.as_ref(), rooms);
        assert_eq!(answer, Err(wanted), "a refusal that must come");
    }

    /// Records writing a name and letters, which must come to what `judge` says; gives the length.
    fn write_in(&mut self, name: &[u8], letters: &[u8], room: usize) -> Result<usize, Refused> {
        let (answer, out) = self.record.write_fasta(name, letters, room);
        let answer = answer.map_err(number_and_place);
        let wanted = judged_record(name, letters).map(|record| [record]);
        let called = (answer.map(|length| [length]), [out]);
        assert!(called == outcome(wanted, [room]), "{name:?} {letters:?}");
        answer
    }

    /// Records reading a record, which must come to what `judge` says; gives the lengths of the name and of the letters.
    fn read_in(&mut self, record: &[u8], rooms: [usize; 2]) -> Result<[usize; 2], Refused> {
        let (answer, outs) = self.record.read_fasta(record, rooms);
        let answer = answer.map_err(number_and_place);
        let answer = answer.map(|parts| [parts.name, parts.letters]);
        let called = (answer, outs);
        let shown = String::from_utf8_lossy(record);
        assert!(called == outcome(judged_parts(record), rooms), "{shown:?}");
        answer
    }
}

/// The refusal's number and place.
fn number_and_place(refusal: Refusal) -> Refused {
    (refusal.number(), refusal.place)
}
