//! Lists with several faults at once: the one that is tested first decides.

use crate::lists::{any_lists, any_room, Lists};
use crate::reader;
use crate::refusal::{Reason, Refusal};
use crate::vectors::cases::faults::edge_places;
use crate::vectors::cases::{Cases, KINDS};
use crate::vectors::record::LONGEST_ROOM;

/// One fault: the refusal that it gives by itself, and how it is made in the lists or the room.
type Fault = ((u8, usize), fn(&mut Lists, &mut usize));

impl Cases {
    /// Pairs and triples from a ladder of faults.
    pub(super) fn list_orders(&mut self) {
        let ladder = ladder();
        for low in 0..ladder.len() {
            for high in low..ladder.len() {
                self.faults_together(&ladder, vec![low, high]);
            }
        }
        for _ in 0..80 {
            let mut chosen = vec![0; 3];
            chosen.fill_with(|| self.random.below(ladder.len()));
            chosen.sort_unstable();
            self.faults_together(&ladder, chosen);
        }
    }

    /// Makes the chosen faults of the ladder, the lowest first and each once, in one call.
    fn faults_together(&mut self, ladder: &[Fault], mut chosen: Vec<usize>) {
        chosen.dedup();
        let kind = self.random.pick(&KINDS);
        let mut lists = Lists::sound(&mut self.random, kind, 3, 65);
        let mut room = LONGEST_ROOM;
        for &rung in &chosen {
            ladder[rung].1(&mut lists, &mut room);
        }
        let (number, place) = ladder[chosen[0]].0;
        self.unwritten_in(room, &lists, number, place);
    }

    /// A wrong word and wrong places, at one entry or at two: 10 comes first at one alone.
    pub(super) fn entry_orders(&mut self) {
        for turn in 0..160 {
            let kind = self.random.pick(&KINDS);
            let m = self.random.pick(&[2, 9, 20, 63, 64, 70]);
            let mut lists = Lists::sound(&mut self.random, kind, 4, m);
            let wrong = edge_places(kind, m).into_iter().filter(|edge| !edge.2);
            let wrong: Vec<(u16, u16, bool)> = wrong.collect();
            let (one, two, _) = self.random.pick(&wrong);
            let i = self.random.below(usize::from(m));
            let j = match turn % 4 {
                0 => i,
                _ => self.random.below(usize::from(m)),
            };
            lists.words[i] |= self.random.pick(&[1 << 8, 1 << 9, 1 << 16, 1 << 31]);
            (lists.ones[j], lists.twos[j]) = (one, two);
            if i <= j {
                self.unwritten(&lists, 10, i);
            } else {
                self.unwritten(&lists, 11, j);
            }
        }
    }

    /// Any lists with any room; where a card could say the same, the reader says what it gets.
    pub(super) fn any_writing(&mut self) {
        for _ in 0..300 {
            let lists = any_lists(&mut self.random);
            let room = any_room(&mut self.random, &lists);
            let (answer, _) = self.record.write(&lists, room);
            if let Some(expected) = as_read(&lists, room) {
                assert_eq!(answer, expected, "reader and writer differ on {lists:?}");
            }
        }
    }
}

/// What the writer must answer, by the reader's answer to the card that the lists ask for.
fn as_read(lists: &Lists, room: usize) -> Option<Result<usize, Refusal>> {
    let card = lists.draft()?.lay_out();
    let answer = match reader::admit(&card) {
        Err(refusal) => Err(refusal),
        Ok(_) if room < card.len() => Err(Reason::Room.at(0)),
        Ok(_) => Ok(card.len()),
    };
    Some(answer)
}

/// Faults in the order on writing, for lists with l = 3 and m = 65.
///
/// No fault hides one that comes before it, so that of any choice of them the
/// lowest rung decides.
fn ladder() -> Vec<Fault> {
    fn spoil_word(lists: &mut Lists, i: usize) {
        lists.words[i] |= 1 << 6;
    }
    fn spoil_places(lists: &mut Lists, i: usize) {
        // 65,535 as place one is wrong on either kind.
        lists.ones[i] = 65_535;
    }
    fn lengthen(lists: &mut Lists) {
        // The three grow alike, so that they differ in length if they did before.
        let sound = lists.get(0);
        for _ in 0..440 {
            lists.push(sound);
        }
    }
    vec![
        ((5, 0), |lists, _| lists.kind += 256),
        ((6, 0), |lists, _| lists.l = 13),
        ((13, 0), |lists, _| _ = lists.twos.pop()),
        ((7, 0), |lists, _| lengthen(lists)),
        ((10, 0), |lists, _| spoil_word(lists, 0)),
        ((11, 0), |lists, _| spoil_places(lists, 0)),
        ((10, 1), |lists, _| spoil_word(lists, 1)),
        ((11, 1), |lists, _| spoil_places(lists, 1)),
        ((10, 62), |lists, _| spoil_word(lists, 62)),
        ((11, 62), |lists, _| spoil_places(lists, 62)),
        ((10, 63), |lists, _| spoil_word(lists, 63)),
        ((11, 63), |lists, _| spoil_places(lists, 63)),
        ((10, 64), |lists, _| spoil_word(lists, 64)),
        ((11, 64), |lists, _| spoil_places(lists, 64)),
        ((12, 0), |lists, room| *room = lists.size() - 1),
    ]
}
