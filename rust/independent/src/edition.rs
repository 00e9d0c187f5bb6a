//! The editions of an object: what its contents begin with and which bodies it has.

use crate::limits;

/// The bodies of edition 1.
pub const BODIES: usize = 7;
/// Four words, then three for each body.
pub const CONTENTS_BYTES: usize = contents_bytes(BODIES);
/// The bytes of one entry of each body, kind 1 first.
pub const ENTRY_BYTES: [usize; BODIES] = first_bodies(ENTRY_BYTES_OF_TWO);
/// The most entries of each body, kind 1 first.
pub const ENTRY_LIMITS: [usize; BODIES] = first_bodies(ENTRY_LIMITS_OF_TWO);

/// Edition 2: "Bodies 1-7 are as in edition 1. Then: 8 format words, 9 list items, 10 transfers".
const ENTRY_BYTES_OF_TWO: [usize; 10] = [4, 36, 4, 16, 4, 12, 20, 4, 8, 12];
const ENTRY_LIMITS_OF_TWO: [usize; 10] = [
    limits::CONSTANTS,
    limits::ELEMENTS,
    limits::EXITS,
    limits::DOS,
    limits::CODE,
    limits::STATEMENTS,
    limits::NAMES,
    limits::FORMAT_WORDS,
    limits::LIST_ITEMS,
    limits::TRANSFERS,
];

/// Of what edition 2 has for each body, that of edition 1's bodies.
const fn first_bodies(of_two: [usize; 10]) -> [usize; BODIES] {
    let mut first = [0; BODIES];
    let mut kind = 0;
    while kind < BODIES {
        first[kind] = of_two[kind];
        kind += 1;
    }
    first
}

#[derive(Clone, Copy, Debug, PartialEq, Eq, PartialOrd, Ord)]
pub enum Edition {
    One,
    Two,
}

impl Edition {
    /// The edition that an object's first word names.
    pub fn named(word: u32) -> Option<Edition> {
        [Edition::One, Edition::Two]
            .into_iter()
            .find(|edition| edition.word() == word)
    }

    pub fn word(self) -> u32 {
        match self {
            Edition::One => 1,
            Edition::Two => 2,
        }
    }

    pub fn entry_bytes(self) -> &'static [usize] {
        match self {
            Edition::One => &ENTRY_BYTES,
            Edition::Two => &ENTRY_BYTES_OF_TWO,
        }
    }

    pub fn entry_limits(self) -> &'static [usize] {
        match self {
            Edition::One => &ENTRY_LIMITS,
            Edition::Two => &ENTRY_LIMITS_OF_TWO,
        }
    }

    pub fn bodies(self) -> usize {
        self.entry_bytes().len()
    }

    pub fn contents_bytes(self) -> usize {
        contents_bytes(self.bodies())
    }

    /// The length of the longest object there can be.
    pub fn longest(self) -> usize {
        let bodies = self.entry_bytes().iter().zip(self.entry_limits());
        self.contents_bytes() + bodies.map(|(bytes, limit)| bytes * limit).sum::<usize>()
    }
}

const fn contents_bytes(bodies: usize) -> usize {
    4 * (4 + 3 * bodies)
}
