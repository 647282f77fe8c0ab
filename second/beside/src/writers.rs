//! The calls that write a card, alike for the library, `second` and plain C.

use second::lists::Lists;

use crate::answers::WriteAnswer;

/// A call that writes the card of a kind and l whose entries stand in three lists.
pub type Writer = fn(usize, usize, &[u32], &[u16], &[u16], &mut [u8]) -> WriteAnswer;

/// What such a call answers for these lists.
pub fn written_by(write: Writer, lists: &Lists, out: &mut [u8]) -> WriteAnswer {
    let Lists {
        kind,
        l,
        words,
        ones,
        twos,
    } = lists;
    write(*kind, *l, words, ones, twos, out)
}
