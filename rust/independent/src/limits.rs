//! "Most: 400 statements, 100 names, 64 DOs nested 8 deep, 256 constants, 256 elements,
//! 1,024 exit words, 4,096 code words, 4,096 cells."

pub const STATEMENTS: usize = 400;
pub const NAMES: usize = 100;
pub const DOS: usize = 64;
pub const DO_DEPTH: usize = 8;
pub const CONSTANTS: usize = 256;
pub const ELEMENTS: usize = 256;
pub const EXITS: usize = 1024;
pub const CODE: usize = 4096;
pub const CELLS: usize = 4096;

/// "A deck is 1 to 512 cards of 80 ASCII bytes".
pub const CARDS: usize = 512;
pub const CARD_BYTES: usize = 80;
/// "any other character continues it, at most nine times".
pub const CONTINUATIONS: usize = 9;
/// "parentheses, up to sixteen deep".
pub const PARENTHESES: usize = 16;
/// "a statement number 1 to 99999".
pub const LARGEST_NUMBER: u32 = 99_999;
/// "a table gives each instruction 0 to 40".
pub const STACK: usize = 40;

/// "Most: 4,096 format words, 1,024 list items, 400 transfers".
pub const FORMAT_WORDS: usize = 4096;
pub const LIST_ITEMS: usize = 1024;
pub const TRANSFERS: usize = 400;
/// "column 80 of a card, 132 of a line".
pub const LINE_BYTES: usize = 132;
