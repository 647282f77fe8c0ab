//! Sets the compiled library beside the second implementation.
//!
//! * [`answers`]: the answers of the library, as C passes them;
//! * [`firmware`]: the compiled library, called through C;
//! * [`independent`]: the answers of `second`, put as the library puts them;
//! * [`plain`]: the walk, and reading and writing, in plain C, to be timed beside the library;
//! * [`writers`]: the calls of each that write a card, as one type.

pub mod answers;
pub mod firmware;
pub mod independent;
pub mod plain;
pub mod writers;
