//! What is in plain C, to be timed beside the library.
//!
//! * [`walk`]: the walk on span lists, as `c/walk.c` has it;
//! * [`card`]: reading and writing cards, as `c/card.c` has it.

pub mod card;
pub mod walk;
