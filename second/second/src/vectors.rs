//! The stored vectors: records of operations, and the lines that they must give.

mod cases;
mod record;

pub use record::Record;

/// The seed of everything that is drawn.
const SEED: u64 = 20_250_101;

/// All vectors, which are always the same.
pub fn all() -> Record {
    cases::Cases::all(SEED)
}
