//! The compiled library, called through C.

use crate::answers::{
    Admitted, BuildAnswer, CountAnswer, EntryAnswer, FastaAnswer, Held, Part, StepAnswer,
    WriteAnswer,
};

/// The functions as C declares them.
mod exported {
    use super::{
        Admitted, BuildAnswer, CountAnswer, EntryAnswer, FastaAnswer, Held, Part, StepAnswer,
        WriteAnswer,
    };

    extern "C" {
        pub fn belfrymist_admit(card: *const u8, len: usize) -> Admitted;
        pub fn belfrymist_entry(card: *const u8, len: usize, i: usize) -> EntryAnswer;
        pub fn belfrymist_step(card: *const u8, len: usize, at: usize) -> StepAnswer;
        pub fn belfrymist_companion(card: *const u8, len: usize, k: usize) -> Held;
        pub fn belfrymist_fetch(card: *const u8, len: usize, k: usize) -> Part;
        pub fn belfrymist_write(
            kind: usize,
            l: usize,
            words: *const u32,
            words_len: usize,
            ones: *const u16,
            ones_len: usize,
            twos: *const u16,
            twos_len: usize,
            out: *mut u8,
            out_len: usize,
        ) -> WriteAnswer;
        pub fn belfrymist_build(
            card: *const u8,
            card_len: usize,
            budget: u32,
            out: *mut u8,
            out_len: usize,
        ) -> BuildAnswer;
        pub fn belfrymist_count(card: *const u8, card_len: usize) -> CountAnswer;
        pub fn belfrymist_count_lists(
            kind: usize,
            l: usize,
            words: *const u32,
            words_len: usize,
            ones: *const u16,
            ones_len: usize,
            twos: *const u16,
            twos_len: usize,
        ) -> CountAnswer;
        pub fn belfrymist_settle(
            card: *const u8,
            card_len: usize,
            out: *mut u8,
            out_len: usize,
        ) -> BuildAnswer;
        pub fn belfrymist_settle_lists(
            kind: usize,
            l: usize,
            words: *const u32,
            words_len: usize,
            ones: *const u16,
            ones_len: usize,
            twos: *const u16,
            twos_len: usize,
            out: *mut u8,
            out_len: usize,
        ) -> BuildAnswer;
        pub fn belfrymist_import(
            list: *const u8,
            list_len: usize,
            out: *mut u8,
            out_len: usize,
        ) -> WriteAnswer;
        pub fn belfrymist_export(
            card: *const u8,
            card_len: usize,
            out: *mut u8,
            out_len: usize,
        ) -> WriteAnswer;
        pub fn belfrymist_write_fasta(
            name: *const u8,
            name_len: usize,
            letters: *const u8,
            letters_len: usize,
            out: *mut u8,
            out_len: usize,
        ) -> WriteAnswer;
        pub fn belfrymist_read_fasta(
            record: *const u8,
            record_len: usize,
            name: *mut u8,
            name_len: usize,
            letters: *mut u8,
            letters_len: usize,
        ) -> FastaAnswer;
    }
}

use exported::{
    belfrymist_admit, belfrymist_build, belfrymist_companion, belfrymist_count,
    belfrymist_count_lists, belfrymist_entry, belfrymist_export, belfrymist_fetch,
    belfrymist_import, belfrymist_read_fasta, belfrymist_settle, belfrymist_settle_lists,
    belfrymist_step, belfrymist_write, belfrymist_write_fasta,
};

/// Admits the card.
pub fn admit(card: &[u8]) -> Admitted {
    // SAFETY: the pointer and the length are those of a slice that lives through
    // the call, and the library only reads the card.
    unsafe { belfrymist_admit(card.as_ptr(), card.len()) }
}

/// Fetches entry i.
pub fn entry(card: &[u8], i: usize) -> EntryAnswer {
    // SAFETY: as for `admit`.
    unsafe { belfrymist_entry(card.as_ptr(), card.len(), i) }
}

/// Takes a step from this head.
pub fn step(card: &[u8], at: usize) -> StepAnswer {
    // SAFETY: as for `admit`.
    unsafe { belfrymist_step(card.as_ptr(), card.len(), at) }
}

/// Says whether the fetch of block k holds.
pub fn companion(card: &[u8], k: usize) -> Held {
    // SAFETY: as for `admit`.
    unsafe { belfrymist_companion(card.as_ptr(), card.len(), k) }
}

/// Fetches block k.
pub fn fetch(card: &[u8], k: usize) -> Part {
    // SAFETY: as for `admit`.
    unsafe { belfrymist_fetch(card.as_ptr(), card.len(), k) }
}

/// Writes the card of this kind and l whose entries stand in three lists.
pub fn write(
    kind: usize,
    l: usize,
    words: &[u32],
    ones: &[u16],
    twos: &[u16],
    out: &mut [u8],
) -> WriteAnswer {
    // SAFETY: each pointer with its length is that of a slice that lives through
    // the call; the library only reads the lists, and the output is lent to it
    // alone.
    unsafe {
        belfrymist_write(
            kind,
            l,
            words.as_ptr(),
            words.len(),
            ones.as_ptr(),
            ones.len(),
            twos.as_ptr(),
            twos.len(),
            out.as_mut_ptr(),
            out.len(),
        )
    }
}

/// Builds from the card with this budget.
pub fn build(card: &[u8], budget: u32, out: &mut [u8]) -> BuildAnswer {
    // SAFETY: each pointer with its length is that of a slice that lives through
    // the call; the library only reads the card, and the output is lent to it
    // alone.
    unsafe {
        belfrymist_build(
            card.as_ptr(),
            card.len(),
            budget,
            out.as_mut_ptr(),
            out.len(),
        )
    }
}

/// Counts the builds of the card.
pub fn count(card: &[u8]) -> CountAnswer {
    // SAFETY: as for `admit`.
    unsafe { belfrymist_count(card.as_ptr(), card.len()) }
}

/// Counts the builds of the card of this kind and l whose entries stand in three lists.
pub fn count_lists(
    kind: usize,
    l: usize,
    words: &[u32],
    ones: &[u16],
    twos: &[u16],
) -> CountAnswer {
    // SAFETY: each pointer with its length is that of a slice that lives through
    // the call, and the library only reads the lists.
    unsafe {
        belfrymist_count_lists(
            kind,
            l,
            words.as_ptr(),
            words.len(),
            ones.as_ptr(),
            ones.len(),
            twos.as_ptr(),
            twos.len(),
        )
    }
}

/// Settles the card, whose spans must be narrow.
pub fn settle(card: &[u8], out: &mut [u8]) -> BuildAnswer {
    // SAFETY: as for `build`.
    unsafe { belfrymist_settle(card.as_ptr(), card.len(), out.as_mut_ptr(), out.len()) }
}

/// Settles the card of this kind and l whose entries stand in three lists.
pub fn settle_lists(
    kind: usize,
    l: usize,
    words: &[u32],
    ones: &[u16],
    twos: &[u16],
    out: &mut [u8],
) -> BuildAnswer {
    // SAFETY: as for `write`.
    unsafe {
        belfrymist_settle_lists(
            kind,
            l,
            words.as_ptr(),
            words.len(),
            ones.as_ptr(),
            ones.len(),
            twos.as_ptr(),
            twos.len(),
            out.as_mut_ptr(),
            out.len(),
        )
    }
}

/// Imports a list of the older readers as a card.
pub fn import(list: &[u8], out: &mut [u8]) -> WriteAnswer {
    // SAFETY: each pointer with its length is that of a slice that lives through
    // the call; the library only reads the list, and the output is lent to it
    // alone.
    unsafe { belfrymist_import(list.as_ptr(), list.len(), out.as_mut_ptr(), out.len()) }
}

/// Exports the card as a list of the older readers.
pub fn export(card: &[u8], out: &mut [u8]) -> WriteAnswer {
    // SAFETY: as for `build`.
    unsafe { belfrymist_export(card.as_ptr(), card.len(), out.as_mut_ptr(), out.len()) }
}

/// Writes a name and letters as a FASTA record.
pub fn write_fasta(name: &[u8], letters: &[u8], out: &mut [u8]) -> WriteAnswer {
    // SAFETY: each pointer with its length is that of a slice that lives through
    // the call; the library only reads the name and the letters, and the output
    // is lent to it alone.
    unsafe {
        belfrymist_write_fasta(
            name.as_ptr(),
            name.len(),
            letters.as_ptr(),
            letters.len(),
            out.as_mut_ptr(),
            out.len(),
        )
    }
}

/// Reads a FASTA record into an output for its name and one for its letters.
pub fn read_fasta(record: &[u8], name: &mut [u8], letters: &mut [u8]) -> FastaAnswer {
    // SAFETY: each pointer with its length is that of a slice that lives through
    // the call; the library only reads the record, and each output is lent to it
    // alone.
    unsafe {
        belfrymist_read_fasta(
            record.as_ptr(),
            record.len(),
            name.as_mut_ptr(),
            name.len(),
            letters.as_mut_ptr(),
            letters.len(),
        )
    }
}
