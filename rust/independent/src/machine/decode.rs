//! Code made ready to be run: each instruction with the entry that it uses, judged once.

use crate::check::{constant_right, do_right, element_right, instruction_right, targets, transfer_uses_right};
use crate::object::{unpack, DoEntry, Tables};
use crate::operation::*;

/// An instruction word made ready for the loop.
#[derive(Clone, Copy)]
pub struct Decoded {
    pub pops: u8,
    pub pushes: u8,
    pub act: Act,
}

#[derive(Clone, Copy)]
pub enum Act {
    /// "breaks 43, or uses an entry that breaks 42"
    Wrong,
    Halt(u32),
    Constant(i64),
    Load(usize),
    Store(usize),
    /// The entry's index.
    LoadElement(usize),
    StoreElement(usize),
    Add,
    Subtract,
    Multiply,
    Divide,
    Negate,
    Jump(u32),
    /// Below, at, above 0.
    Branch([u32; 3]),
    /// The index of the first target in body 3, and the count.
    Choose(u32, u32),
    Begin(DoEntry),
    EndTurn(DoEntry),
    /// The entry's index, and whether it is a READ.
    Transfer {
        entry: u32,
        reads: bool,
    },
}

pub fn decode(t: &Tables) -> Vec<Decoded> {
    (0..t.code.len()).map(|index| decode_one(t, index)).collect()
}

fn decode_one(t: &Tables, index: usize) -> Decoded {
    let (operation, operand) = unpack(t.code[index]);
    let (pops, pushes) = pops_pushes(operation);
    let right = instruction_right(t, index) && entry_right(t, operation, operand);
    // A wrong instruction pops nothing, for 8 comes before 7.
    let (pops, pushes, act) = if right {
        (pops, pushes, act(t, operation, operand))
    } else {
        (0, 0, Act::Wrong)
    };
    Decoded {
        pops: pops as u8,
        pushes: pushes as u8,
        act,
    }
}

/// Whether the entry that a right instruction uses does not break 42.
fn entry_right(t: &Tables, operation: u32, operand: u32) -> bool {
    let entry = operand as usize;
    match operation {
        CON => constant_right(t, t.constants[entry]),
        LDE | STE => element_right(t, &t.elements[entry]),
        DOI | DOE => do_right(t, &t.dos[entry]),
        READ | PRINT => transfer_uses_right(t, &t.transfers[entry]),
        _ => true,
    }
}

/// What a right instruction does.
fn act(t: &Tables, operation: u32, operand: u32) -> Act {
    let entry = operand as usize;
    match operation {
        HLT => Act::Halt(operand),
        CON => Act::Constant(i64::from(t.constants[entry])),
        LOD => Act::Load(entry),
        STO => Act::Store(entry),
        LDE => Act::LoadElement(entry),
        STE => Act::StoreElement(entry),
        ADD => Act::Add,
        SUB => Act::Subtract,
        MUL => Act::Multiply,
        DIV => Act::Divide,
        NEG => Act::Negate,
        JMP => Act::Jump(operand),
        BR3 => match targets(t, operation, operand) {
            Some([below, at, above]) => Act::Branch([*below, *at, *above]),
            _ => Act::Wrong,
        },
        BRC => Act::Choose(operand + 1, t.exits[entry]),
        DOI => Act::Begin(t.dos[entry]),
        DOE => Act::EndTurn(t.dos[entry]),
        READ | PRINT => Act::Transfer {
            entry: operand,
            reads: operation == READ,
        },
        _ => Act::Wrong,
    }
}
