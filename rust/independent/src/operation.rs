//! The operations (01 "Translation", the table), by number.

pub const HLT: u32 = 0;
pub const CON: u32 = 1;
pub const LOD: u32 = 2;
pub const STO: u32 = 3;
pub const LDE: u32 = 4;
pub const STE: u32 = 5;
pub const ADD: u32 = 6;
pub const SUB: u32 = 7;
pub const MUL: u32 = 8;
pub const DIV: u32 = 9;
pub const NEG: u32 = 10;
pub const JMP: u32 = 11;
pub const BR3: u32 = 12;
pub const BRC: u32 = 13;
pub const DOI: u32 = 14;
pub const DOE: u32 = 15;
/// 02, 2026-01: "16 READ t and 17 PRINT t, t an entry of body 10; pops 0, pushes 0".
pub const READ: u32 = 16;
pub const PRINT: u32 = 17;

/// "pops, pushes" of a known operation.
pub fn pops_pushes(operation: u32) -> (usize, usize) {
    match operation {
        CON | LOD | LDE => (0, 1),
        STO | STE | BR3 | BRC => (1, 0),
        ADD | SUB | MUL | DIV => (2, 1),
        NEG => (1, 1),
        DOI => (3, 0),
        _ => (0, 0),
    }
}
