//! The writer: lists that are written, and the room for them.

mod faults;
mod orders;

use super::{Cases, KINDS};
use crate::cards::any_count;
use crate::entry::Stored;
use crate::lists::{any_room, Lists};
use crate::numbers::{BLOCK, NO_PLACE};
use crate::profile::Kind;
use crate::stored::is_untouched;
use crate::tables::{tables, Table};
use crate::vectors::record::LONGEST_ROOM;

impl Cases {
    /// All cases of the writer.
    pub(super) fn writing(&mut self) {
        self.written_tables();
        self.written_lists();
        self.outputs();
        self.odd_kinds_and_letters();
        self.list_lengths();
        self.list_counts();
        self.list_words();
        self.list_places();
        self.list_orders();
        self.entry_orders();
        self.any_writing();
    }

    /// The small tables, with the room that they take and with more.
    fn written_tables(&mut self) {
        for Table { lists, .. } in tables() {
            for room in [1024, 1025, 1600, LONGEST_ROOM] {
                self.written(&lists, room);
            }
            self.unwritten_in(1023, &lists, 12, 0);
        }
    }

    /// Random sound lists of both kinds, with every l and at the edges of the blocks.
    fn written_lists(&mut self) {
        for kind in KINDS {
            for l in 2..=12 {
                for most in [1, 4, 12, 12, 12, 80] {
                    let m = self.random.between(1, most) as u16;
                    let lists = Lists::sound(&mut self.random, kind, l, m);
                    self.written_somewhere(&lists);
                }
                let mut lists = Lists::sound(&mut self.random, kind, l, 3);
                lists.words.fill((1 << (2 * l)) - 1);
                self.written_somewhere(&lists);
            }
            for m in [
                1, 2, 8, 9, 62, 63, 64, 65, 125, 126, 127, 189, 190, 503, 504,
            ] {
                let l = self.random.between(2, 12) as u8;
                let lists = Lists::sound(&mut self.random, kind, l, m);
                self.written(&lists, lists.size());
            }
            for _ in 0..40 {
                let l = self.random.between(2, 12) as u8;
                let m = any_count(&mut self.random);
                let lists = Lists::sound(&mut self.random, kind, l, m);
                self.written_somewhere(&lists);
            }
        }
    }

    /// Room around the size of a card, and far from it.
    fn outputs(&mut self) {
        for kind in KINDS {
            for m in [1, 2, 62, 63, 64, 125, 126, 127, 504] {
                let lists = Lists::sound(&mut self.random, kind, 7, m);
                let size = 512 * (1 + usize::from(m).div_ceil(63));
                let mut enough = vec![size, size + 1, LONGEST_ROOM];
                let mut short = vec![0, size - 1];
                // Full lists are long, so that only some rooms are tried.
                if m < 504 {
                    enough.extend([size + 2, size + BLOCK - 1, size + BLOCK, 2 * size]);
                    short.extend([1, BLOCK - 1, BLOCK, BLOCK + 1, size - BLOCK, size - 2]);
                }
                for room in enough {
                    self.written(&lists, room);
                }
                for room in short {
                    self.unwritten_in(room, &lists, 12, 0);
                }
            }
        }
    }

    /// Records lists that must be written, with some room that is enough.
    fn written_somewhere(&mut self, lists: &Lists) {
        let size = lists.size();
        let more = size + self.random.between(2, 2 * BLOCK);
        let room = self.random.pick(&[size, size, size + 1, more]);
        self.written(lists, room);
    }

    /// Records lists that must be written into this room, as their draft lays out the card.
    fn written(&mut self, lists: &Lists, room: usize) {
        let draft = lists.draft().expect("lists of one length");
        let card = draft.lay_out();
        let (answer, out) = self.record.write(lists, room);
        assert_eq!(answer, Ok(card.len()), "lists that are sound");
        let (front, back) = out.split_at(card.len());
        assert!(front == card, "the card is not as it is laid out");
        assert!(is_untouched(back), "a byte after the card is touched");
    }

    /// Records lists that must be refused with this number and place, whatever the room is.
    fn unwritten(&mut self, lists: &Lists, number: u8, place: usize) {
        let room = any_room(&mut self.random, lists);
        self.unwritten_in(room, lists, number, place);
    }

    /// Records lists that must be refused with this number and place, with this room.
    fn unwritten_in(&mut self, room: usize, lists: &Lists, number: u8, place: usize) {
        let (answer, out) = self.record.write(lists, room);
        let answer = answer.map_err(|refusal| (refusal.number(), refusal.place));
        assert_eq!(answer, Err((number, place)), "a refusal stated by hand");
        assert!(is_untouched(&out), "a refusal touched the output");
    }

    /// Lists whose entries have random words of two letters, and place 0 alone.
    pub(super) fn flat_lists(&mut self, kind: Kind, m: usize) -> Lists {
        let two = match kind {
            Kind::Pair => NO_PLACE,
            Kind::Span => 0,
        };
        let mut lists = Lists::empty(usize::from(kind.number()), 2);
        for _ in 0..m {
            let word = self.random.below(16) as u32;
            lists.push(Stored { word, one: 0, two });
        }
        lists
    }
}
