//! Which values a deck reads, and which it sets, by the code of its object.

use luvinqata::{Program, Store};

/// Where the contents say a body of each kind begins and how long it is.
const CONTENTS: usize = 16;
const CONTENT: usize = 12;
const ELEMENTS: usize = 2;
const DOS: usize = 4;
const CODE: usize = 5;

const LOD: u32 = 2;
const STO: u32 = 3;
const LDE: u32 = 4;
const STE: u32 = 5;
const DOI: u32 = 14;
const DOE: u32 = 15;

/// For each cell, whether any instruction can read it or set it.
pub struct Uses {
    reads: Vec<bool>,
    sets: Vec<bool>,
}

impl Uses {
    pub fn of(program: &Program) -> Uses {
        let object = program.object();
        let (elements, dos) = (body(object, ELEMENTS), body(object, DOS));
        let mut uses = Uses {
            reads: vec![false; program.cells()],
            sets: vec![false; program.cells()],
        };
        for instruction in body(object, CODE) {
            let operand = (instruction & 0xFF_FFFF) as usize;
            match instruction >> 24 {
                LOD => uses.reads[operand] = true,
                STO => uses.sets[operand] = true,
                LDE => uses.element(&elements[9 * operand..][..9], false),
                STE => uses.element(&elements[9 * operand..][..9], true),
                DOI | DOE => uses.sets[dos[4 * operand] as usize] = true,
                _ => {}
            }
        }
        uses
    }

    /// An element is read or set, and the values in its subscripts are read.
    fn element(&mut self, entry: &[u32], set: bool) {
        let [base, rows, columns] = [entry[0], entry[1], entry[2]];
        for subscript in entry[3..].chunks_exact(3).filter(|subscript| subscript[0] > 0) {
            self.reads[subscript[1] as usize] = true;
        }
        let uses = if set { &mut self.sets } else { &mut self.reads };
        for column in places(&entry[6..], columns) {
            for row in places(&entry[3..6], rows) {
                uses[(base + (column - 1) * rows + row - 1) as usize] = true;
            }
        }
    }

    /// The values that the deck reads, never sets, and that are in none of the given cells.
    pub fn unset(&self, store: &Store, given: impl Fn(usize) -> bool) -> Vec<String> {
        let unset = |name: &String| {
            let cell = store.cell(name).expect("a value of the deck");
            self.reads[cell] && !self.sets[cell] && !given(cell)
        };
        store.iter().map(|(name, _)| name).filter(unset).collect()
    }
}

/// Where a subscript can point: at its addend if its multiplier is 0, else anywhere.
fn places(subscript: &[u32], dimension: u32) -> impl Iterator<Item = u32> + '_ {
    (1..=dimension).filter(|place| subscript[0] > 0 || subscript[2] == *place)
}

fn body(object: &[u8], kind: usize) -> Vec<u32> {
    let words = |bytes: &[u8]| -> Vec<u32> {
        let word = |word: &[u8]| u32::from_le_bytes(word.try_into().expect("four bytes"));
        bytes.chunks_exact(4).map(word).collect()
    };
    let contents = words(&object[CONTENTS + CONTENT * (kind - 1)..][..CONTENT]);
    words(&object[contents[1] as usize..][..contents[2] as usize])
}
