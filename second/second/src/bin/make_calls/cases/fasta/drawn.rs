//! Names, letters and records that are drawn: sound ones, and the same with a few faults.

use second::for_builds::any_room;
use second::records::{any_bytes_for_letters, any_name, any_record, damage};

use crate::cases::Cases;
use crate::record::LONGEST_PART;

/// The turns, each of which writes once and reads a few times.
const TURNS: usize = 100;
/// The damaged copies of each record.
const COPIES: usize = 4;
/// Longer ones take much room, so that shorter ones are drawn instead.
const LONGEST: usize = 700;

impl Cases {
    /// All of them; what comes of each is what `judge` says.
    pub(super) fn drawn_records(&mut self) {
        for _ in 0..TURNS {
            let name = any_name(&mut self.random);
            let mut letters = any_bytes_for_letters(&mut self.random);
            letters.truncate(LONGEST);
            let room = any_room(&mut self.random, letters.len());
            _ = self.write_in(&name, &letters, room);
            _ = self.write_in(&name, &letters, LONGEST_PART);
            let mut record = any_record(&mut self.random);
            while record.len() > LONGEST {
                record = any_record(&mut self.random);
            }
            self.read_in_any_rooms(&record);
            for _ in 0..COPIES {
                let mut record = record.clone();
                damage(&mut self.random, &mut record);
                self.read_in_any_rooms(&record);
            }
        }
    }

    /// Records reading a record, mostly with enough room.
    fn read_in_any_rooms(&mut self, record: &[u8]) {
        let rooms = match self.random.below(4) {
            0 => [40, record.len()].map(|length| any_room(&mut self.random, length)),
            _ => [40, LONGEST_PART],
        };
        _ = self.read_in(record, rooms);
    }
}
