//! Reading and writing cards in plain C, as `c/card.c` has it.

use crate::answers::{Admitted, Held, WriteAnswer};

extern "C" {
    fn c_companion(card: *const u8, length: usize, k: usize) -> Held;
    fn c_admit(card: *const u8, length: usize) -> Admitted;
    fn c_write(
        kind: usize,
        l: usize,
        words: *const u32,
        words_length: usize,
        ones: *const u16,
        ones_length: usize,
        twos: *const u16,
        twos_length: usize,
        out: *mut u8,
        room: usize,
    ) -> WriteAnswer;
}

/// Says whether the fetch of block k holds.
pub fn companion(card: &[u8], k: usize) -> Held {
    // SAFETY: the pointer and the length are those of a slice that lives through
    // the call, and C only reads it; the answer is laid out as C declares it.
    unsafe { c_companion(card.as_ptr(), card.len(), k) }
}

/// Admits the card.
pub fn admit(card: &[u8]) -> Admitted {
    // SAFETY: as for `companion`.
    unsafe { c_admit(card.as_ptr(), card.len()) }
}

/// Writes the card of this kind and l whose entries stand in three lists.
pub fn write(
    kind: usize,
    l: usize,
    words: &[u32],
    ones: &[u16],
    twos: &[u16],
    out: &mut [u8],
) -> WriteAnswer {
    // SAFETY: each pointer with its length is that of a slice that lives through
    // the call; C only reads the lists, and the output is lent to it alone; the
    // answer is laid out as C declares it.
    unsafe {
        c_write(
            kind,
            l,
            words.as_ptr(),
            words.len(),
            ones.as_ptr(),
            ones.len(),
            twos.as_ptr(),
            twos.len(),
            out.as_mut_ptr(),
            out.len(),
        )
    }
}

#[cfg(test)]
mod tests;
