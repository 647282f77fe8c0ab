//! Every value of a byte at places of a small list: in place of another byte, before it, and after all.

use crate::cases::Cases;
use crate::record::LONGEST_ROOM;

impl Cases {
    /// All values at these places; what comes of each is what `judge` says.
    pub(super) fn bytes(&mut self) {
        let list = b"AC\t1,2\nCA\t2\n";
        // A letter, the tab, a digit, the mark, the newline, the first letter of a line, and the last byte.
        for at in [0, 2, 3, 4, 6, 7, list.len() - 1] {
            for byte in 0..=255 {
                let mut changed = list.to_vec();
                changed[at] = byte;
                _ = self.import_in(&changed, LONGEST_ROOM);
            }
        }
        let list = b"AC\t1-2\nCA\t2\n";
        for at in [1, 3, list.len()] {
            for byte in 0..=255 {
                let (before, after) = list.split_at(at);
                let longer = [before, &[byte], after].concat();
                _ = self.import_in(&longer, LONGEST_ROOM);
            }
        }
    }
}
