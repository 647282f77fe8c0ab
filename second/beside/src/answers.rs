//! The answers of the compiled library.
//!
//! Each structure stands as C passes it: every field is one machine word, and
//! a number of 0 says that nothing was refused.

/// What admitting a card answers; all fields but number and place are 0 where it is refused.
#[repr(C)]
#[derive(Clone, Copy, Debug, Default, PartialEq, Eq)]
pub struct Admitted {
    /// The refusal's number, or 0.
    pub number: usize,
    /// The refusal's place, or 0.
    pub place: usize,
    /// The stored kind.
    pub kind: usize,
    /// The letters of each word.
    pub l: usize,
    /// The number of entries.
    pub m: usize,
}

/// What an entry fetch answers; all fields but number and place are 0 where it is refused.
#[repr(C)]
#[derive(Clone, Copy, Debug, Default, PartialEq, Eq)]
pub struct EntryAnswer {
    /// The refusal's number, or 0.
    pub number: usize,
    /// The refusal's place, or 0.
    pub place: usize,
    /// 1 for one place, 2 for two places, 3 for a span.
    pub shape: usize,
    /// The word's value.
    pub word: usize,
    /// The one place, the first of two, or the first of the span.
    pub first: usize,
    /// The second of two places or the last of the span, else 0.
    pub second: usize,
}

/// What a step answers; all fields are 0 at the end, and all but number and place on refusal.
#[repr(C)]
#[derive(Clone, Copy, Debug, Default, PartialEq, Eq)]
pub struct StepAnswer {
    /// The refusal's number, or 0.
    pub number: usize,
    /// The refusal's place, or 0.
    pub place: usize,
    /// 1 for one place, 2 for two places, 3 for a span, 0 for the end.
    pub shape: usize,
    /// The word's value.
    pub word: usize,
    /// The one place, the first of two, or the first of the span.
    pub first: usize,
    /// The second of two places or the last of the span, else 0.
    pub second: usize,
    /// Where the moved head stands.
    pub next: usize,
}

/// What the companion of a block fetch answers: number 0 says that the fetch holds.
#[repr(C)]
#[derive(Clone, Copy, Debug, Default, PartialEq, Eq)]
pub struct Held {
    /// The refusal's number, or 0.
    pub number: usize,
    /// The refusal's place, or 0.
    pub place: usize,
}

/// The part that a block fetch answers; both fields are 0 for the empty part.
#[repr(C)]
#[derive(Clone, Copy, Debug, Default, PartialEq, Eq)]
pub struct Part {
    /// The byte of the card where the part begins.
    pub at: usize,
    /// The bytes of the part.
    pub length: usize,
}

/// What the writer answers, and a call that imports or exports a list or writes a FASTA record; the length is 0 where it refuses.
#[repr(C)]
#[derive(Clone, Copy, Debug, Default, PartialEq, Eq)]
pub struct WriteAnswer {
    /// The refusal's number, or 0.
    pub number: usize,
    /// The refusal's place, or 0.
    pub place: usize,
    /// The length in bytes of the card, of the list that is exported, or of the record.
    pub length: usize,
}

/// What a build answers, and a call that settles; all fields but number and place are 0 where it is refused.
#[repr(C)]
#[derive(Clone, Copy, Debug, Default, PartialEq, Eq)]
pub struct BuildAnswer {
    /// The refusal's number, or 0.
    pub number: usize,
    /// The refusal's place, or 0.
    pub place: usize,
    /// 1 for Sole, 2 for Several, 3 for None, 4 for Unsettled, which settling never answers.
    pub verdict: usize,
    /// The letters at the start of the output for Sole and Several, else 0.
    pub length: usize,
    /// The placements up to the verdict, or the budget where it is Unsettled; 0 on a pair card, and where a call settles.
    pub placements: usize,
}

/// What a count answers; all fields are 0 where there is no build, and all but number and place on refusal.
#[repr(C)]
#[derive(Clone, Copy, Debug, Default, PartialEq, Eq)]
pub struct CountAnswer {
    /// The refusal's number, or 0.
    pub number: usize,
    /// The refusal's place, or 0.
    pub place: usize,
    /// 1 where there is a build, 0 where there is none.
    pub any: usize,
    /// There are two to the power of this many builds, where there is one.
    pub exponent: usize,
}

/// What reading a FASTA record answers; both lengths are 0 where it is refused.
#[repr(C)]
#[derive(Clone, Copy, Debug, Default, PartialEq, Eq)]
pub struct FastaAnswer {
    /// The refusal's number, or 0.
    pub number: usize,
    /// The refusal's place, or 0.
    pub place: usize,
    /// The bytes of the name, at the start of its output.
    pub name: usize,
    /// The letters at the start of their output.
    pub letters: usize,
}
