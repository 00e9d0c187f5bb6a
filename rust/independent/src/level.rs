//! Which of the requests of 02 are in force: a level is the landing of one.

use crate::edition::Edition;

/// Each level amends the one before.
#[derive(Clone, Copy, Debug, PartialEq, Eq, PartialOrd, Ord)]
pub enum Level {
    /// 01 alone.
    Base,
    /// 2026-01: READ, PRINT and FORMAT, cards and lines.
    Cards,
}

impl Level {
    /// The edition that decks compile to: from 2026-01 on it is 2 "with or without READ and PRINT".
    pub fn edition(self) -> Edition {
        match self {
            Level::Base => Edition::One,
            Level::Cards => Edition::Two,
        }
    }

    /// "Objects of edition 1 are taken at every level, of edition 2 from level 1".
    pub fn takes(self, edition: Edition) -> bool {
        edition <= self.edition()
    }
}
