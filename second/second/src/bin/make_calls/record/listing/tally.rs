//! How often each answer came of lists as texts.

use crate::record::Called;

/// How many calls there are, and how often each answer came.
#[derive(Default)]
pub struct Listings {
    pub imports: usize,
    pub exports: usize,
    pub agains: usize,
    answered: usize,
    refused: usize,
}

impl Listings {
    /// All of it in one line.
    pub fn summary(&self) -> String {
        let Listings {
            imports,
            exports,
            agains,
            answered,
            refused,
        } = self;
        let total = imports + exports + agains;
        format!(
            "listings {total}: imports {imports}, exports {exports}, again {agains}; \
             answered {answered}, refused {refused}"
        )
    }

    /// Counts an answer.
    pub fn count(&mut self, (answer, _): &Called) {
        match answer {
            Ok(_) => self.answered += 1,
            Err(_) => self.refused += 1,
        }
    }
}
