//! Three lists that are lent to a call.

use std::fmt::Debug;

use beside::answers::{BuildAnswer, CountAnswer, WriteAnswer};
use beside::firmware;
use second::cards::Random;
use second::lists::Lists;

use crate::lent::{Element, Lent};

/// The three lists, lent to a call.
pub struct LentLists {
    kind: usize,
    l: usize,
    words: Lent<u32>,
    ones: Lent<u16>,
    twos: Lent<u16>,
}

impl LentLists {
    /// Lends a copy of each of these lists.
    pub fn new(random: &mut Random, lists: &Lists) -> LentLists {
        LentLists {
            kind: lists.kind,
            l: lists.l,
            words: Lent::new(random, &lists.words),
            ones: Lent::new(random, &lists.ones),
            twos: Lent::new(random, &lists.twos),
        }
    }

    /// Has the library write them.
    pub fn write(&self, out: &mut [u8]) -> WriteAnswer {
        firmware::write(
            self.kind,
            self.l,
            self.words.elements(),
            self.ones.elements(),
            self.twos.elements(),
            out,
        )
    }

    /// Has the library count their builds.
    pub fn count(&self) -> CountAnswer {
        firmware::count_lists(
            self.kind,
            self.l,
            self.words.elements(),
            self.ones.elements(),
            self.twos.elements(),
        )
    }

    /// Has the library settle them.
    pub fn settle(&self, out: &mut [u8]) -> BuildAnswer {
        firmware::settle_lists(
            self.kind,
            self.l,
            self.words.elements(),
            self.ones.elements(),
            self.twos.elements(),
            out,
        )
    }

    /// Says which element of a list the call changed, if there is one.
    pub fn changed(&self) -> Option<String> {
        let words = self.words.differs().map(|at| ("words", at));
        let ones = self.ones.differs().map(|at| ("places one", at));
        let twos = self.twos.differs().map(|at| ("places two", at));
        let (list, at) = words.or(ones).or(twos)?;
        Some(format!(
            "element {at} of the {list} was changed (guard elements are outside the list)"
        ))
    }

    /// The numbers and lists, so that the call can be made again.
    pub fn shown(&self) -> String {
        format!(
            "kind {}, l {}\nwords {}\nplaces one {}\nplaces two {}",
            self.kind,
            self.l,
            shown(self.words.wanted()),
            shown(self.ones.wanted()),
            shown(self.twos.wanted()),
        )
    }
}

/// The elements of a list; a very long one is cut.
fn shown<T: Element + Debug>(list: &[T]) -> String {
    const SHOWN: usize = 600;
    let more = if list.len() > SHOWN { " and more" } else { "" };
    let front = &list[..list.len().min(SHOWN)];
    format!("({} of them) {front:?}{more}", list.len())
}
