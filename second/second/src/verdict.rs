//! What is found of the builds of a card.

/// What is found.
#[derive(Clone, Copy, Debug, PartialEq, Eq)]
pub enum Verdict {
    /// There is exactly one build.
    Sole,
    /// There are two builds or more.
    Several,
    /// There is no build.
    None,
    /// The budget does not reach to the verdict.
    Unsettled,
}

impl Verdict {
    /// The verdict where there are so many builds, all of them found.
    pub fn of_count(builds: usize) -> Verdict {
        match builds {
            0 => Verdict::None,
            1 => Verdict::Sole,
            _ => Verdict::Several,
        }
    }

    /// The word that stands for the verdict in lines that are printed.
    pub fn name(self) -> &'static str {
        match self {
            Verdict::Sole => "sole",
            Verdict::Several => "several",
            Verdict::None => "none",
            Verdict::Unsettled => "unsettled",
        }
    }
}

/// What is found of the builds of entries, and how.
#[derive(Clone, Debug, PartialEq, Eq)]
pub struct Found {
    /// What was found.
    pub verdict: Verdict,
    /// The placements up to the verdict, or the budget where it is Unsettled; 0 on a pair card.
    pub placements: u32,
    /// The words of the alphabetically first build for Sole and Several, and none otherwise.
    pub words: Vec<u32>,
}

impl Found {
    /// What is found with this verdict, these placements and these words of the first build.
    pub fn new(verdict: Verdict, placements: u32, words: &[u32]) -> Found {
        Found {
            verdict,
            placements,
            words: words.to_vec(),
        }
    }
}
