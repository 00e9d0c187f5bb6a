//! Right objects and states, and objects, stores and states in which one rule is broken, mostly at its edge.

use super::objects::{made_do, made_edition, made_element, made_name, made_statement, made_word};
use super::{transfers, value, Rng};
use crate::check::{instruction_right, Heights};
use crate::level::Level;
use crate::limits::{CELLS, STACK};
use crate::machine::State;
use crate::object::*;
use crate::operation::*;

/// A sound object of the base.
pub fn sound_object(rng: &mut Rng) -> Vec<u8> {
    sound_object_at(Level::Base, rng)
}

/// An object that passes the check: something in each body, code that goes on to a halt by some way, and words that are
/// never reached.
pub fn sound_object_at(level: Level, rng: &mut Rng) -> Vec<u8> {
    sound_tables(level, rng).to_bytes()
}

fn sound_tables(level: Level, rng: &mut Rng) -> Tables {
    let edition = made_edition(level, rng);
    let mut t = Tables::empty_of(edition, rng.range(1, 9) as u32);
    t.cells = if rng.chance(5) {
        CELLS as u32
    } else {
        rng.range(2, 9) as u32
    };
    t.constants = (0..rng.range(1, 4)).map(|_| rng.below(10) as u32).collect();
    t.elements = (0..rng.range(1, 3)).map(|_| made_element(rng, t.cells)).collect();
    t.dos = (0..rng.range(1, 3)).map(|_| made_do(rng, t.cells, 1)).collect();
    if edition >= Edition::Two {
        transfers::fill(rng, &mut t);
    }
    let length = rng.below(20);
    let (code, height) = straight_code(rng, &t, length);
    t.code = code;
    end_code(rng, &mut t, height);
    let length = t.code.len() + rng.range(1, 5);
    t.exits.extend((0..rng.below(5)).map(|_| rng.below(length) as u32));
    t.dos
        .iter_mut()
        .skip(1)
        .for_each(|entry| entry.body = rng.below(length) as u32);
    t.statements = (0..rng.range(1, 4)).map(|n| made_statement(rng, n, length)).collect();
    t.names = (0..rng.range(1, 4)).map(|n| made_name(rng, n, t.cells)).collect();
    while t.code.len() < length {
        let word = made_word(rng, &t, length);
        t.code.push(word);
    }
    let wrong: Vec<usize> = (0..length).filter(|index| !instruction_right(&t, *index)).collect();
    wrong.into_iter().for_each(|index| t.code[index] = pack(HLT, 0));
    t
}

/// Two halts, and a way to them; with the five exits that it may use.
fn end_code(rng: &mut Rng, t: &mut Tables, height: usize) {
    let push = [pack(CON, 0), pack(LOD, 0)][rng.below(2)];
    match rng.below(5) {
        0 => t.code.extend([push, pack(BR3, 1)]),
        1 => t.code.extend([push, pack(BRC, 0)]),
        2 => t.code.push(pack(JMP, t.code.len() as u32 + 2)),
        3 => {
            // The first DO's body is instruction 0, where the stack is empty.
            (0..height).for_each(|_| t.code.push(pack(STO, 0)));
            t.code.push(pack(DOE, 0));
        }
        _ => {}
    }
    let end = t.code.len();
    t.code.extend([pack(HLT, 0), pack(HLT, 1)]);
    t.exits = (0..5)
        .map(|n| if n == 0 { 2 } else { rng.range(end, end + 1) as u32 })
        .collect();
}

/// Instructions that each have their stack and go on to the next, and the height after them.
fn straight_code(rng: &mut Rng, t: &Tables, length: usize) -> (Vec<u32>, usize) {
    let mut height = 0;
    let mut code = Vec::new();
    while code.len() < length {
        let operation = match rng.below(10) {
            0 if !t.transfers.is_empty() && rng.chance(60) => *rng.pick(&[READ, PRINT]),
            0 => *rng.pick(&[LDE, STE, DOI]),
            _ => *rng.pick(&[CON, LOD, CON, LOD, CON, LOD, STO, ADD, SUB, MUL, DIV, NEG]),
        };
        let (pops, pushes) = pops_pushes(operation);
        if height >= pops {
            code.push(pack(operation, operand(rng, t, operation)));
            height = height - pops + pushes;
        }
    }
    (code, height)
}

/// A right operand of an operation that uses no exit.
fn operand(rng: &mut Rng, t: &Tables, operation: u32) -> u32 {
    let length = match operation {
        CON => t.constants.len(),
        LOD | STO => t.cells as usize,
        LDE | STE => t.elements.len(),
        DOI | DOE => t.dos.len(),
        READ | PRINT => t.transfers.len(),
        _ => 1,
    };
    rng.below(length) as u32
}

/// A number from `bound` on, mostly near it.
pub(super) fn over(rng: &mut Rng, bound: u32) -> u32 {
    match rng.below(4) {
        0..=1 => bound,
        2 => bound + rng.below(4) as u32,
        _ => *rng.pick(&[0x7FFF_FFFF, 1 << 31, u32::MAX]),
    }
}

/// The same of twenty-four bits.
fn over_operand(rng: &mut Rng, bound: usize) -> u32 {
    over(rng, bound as u32).min(0xFF_FFFF)
}

/// A broken object of the base.
pub fn broken_object(rng: &mut Rng) -> Vec<u8> {
    broken_object_at(Level::Base, rng)
}

/// A sound object but for one rule of 41 to 44.
pub fn broken_object_at(level: Level, rng: &mut Rng) -> Vec<u8> {
    let mut t = sound_tables(level, rng);
    match rng.below(60) {
        0..=9 => break_limit(rng, &mut t),
        10..=30 if t.edition >= Edition::Two && rng.chance(50) => transfers::break_entry(rng, &mut t),
        10..=30 => break_entry(rng, &mut t),
        31..=53 => break_word(rng, &mut t),
        _ => break_heights(rng, &mut t),
    }
    t.to_bytes()
}

fn break_limit(rng: &mut Rng, t: &mut Tables) {
    fn grow<T: Clone>(table: &mut Vec<T>, length: usize) {
        table.resize(length, table[0].clone());
    }
    let more = rng.range(1, 3);
    let limits = t.edition.entry_limits();
    match rng.below(3 + limits.len()) {
        0 => t.k = 0,
        1 => t.k = over(rng, 10),
        2 => t.cells = over(rng, 4097),
        3 => grow(&mut t.constants, limits[0] + more),
        4 => grow(&mut t.elements, limits[1] + more),
        5 => grow(&mut t.exits, limits[2] + more),
        6 => grow(&mut t.dos, limits[3] + more),
        7 => grow(&mut t.code, limits[4] + more),
        8 => grow(&mut t.statements, limits[5] + more),
        9 => grow(&mut t.names, limits[6] + more),
        10 => grow(&mut t.words, limits[7] + more),
        11 => grow(&mut t.items, limits[8] + more),
        _ => grow(&mut t.transfers, limits[9] + more),
    }
}

fn break_entry(rng: &mut Rng, t: &mut Tables) {
    let power = 10u32.pow(t.k);
    let (cells, code) = (t.cells, t.code.len() as u32);
    let (elements, names) = (rng.below(t.elements.len()), rng.below(t.names.len()));
    let e = &mut t.elements[elements];
    let n = &mut t.names[names];
    let dos = rng.below(t.dos.len());
    let d = &mut t.dos[dos];
    match rng.below(25) {
        0 => {
            let at = rng.below(t.constants.len());
            t.constants[at] = over(rng, power);
        }
        1 => e.rows = 0,
        2 => e.columns = 0,
        3 => e.base = over(rng, cells - e.rows * e.columns + 1),
        4 => e.rows = over(rng, cells + 1),
        5 => e.columns = over(rng, cells + 1),
        6..=7 => e.subscripts[rng.below(2)].multiplier = over(rng, power),
        8..=9 => {
            let addend = over(rng, power);
            let addend = if rng.chance(50) { addend.wrapping_neg() } else { addend };
            // The word of all ones is -1 as an addend, and right.
            let over = i64::from(addend as i32).abs() >= i64::from(power);
            e.subscripts[rng.below(2)].addend = if over { addend as i32 } else { i32::MIN };
        }
        10..=11 => e.subscripts[rng.below(2)].cell = over(rng, cells),
        12 => d.variable = over(rng, cells),
        13 => d.limit = over(rng, cells),
        14 => d.step = over(rng, cells),
        15 => d.body = over(rng, code),
        16 => {
            let at = rng.below(t.statements.len());
            t.statements[at].address = over(rng, code);
        }
        17 => n.columns = over(rng, 1),
        18 => n.first = over(rng, cells),
        19 => n.rows = over(rng, cells - n.first + 1),
        20 => {
            n.columns = over(rng, 1);
            n.rows = over(rng, (cells - n.first) / n.columns + 1);
        }
        21 => n.name[0] = *rng.pick(b" AHOZ09_@i\x00\xFF"),
        22 => n.name[1] = *rng.pick(b"_@[/:a\x00\x1F\x80\xFF"),
        23 => n.name[2..rng.range(7, 8)].fill(b'A'),
        _ => n.name[rng.range(3, 7)] = *rng.pick(b"A0_\x00\xFF"),
    }
}

/// An instruction anywhere, reached or not, that breaks 43.
fn break_word(rng: &mut Rng, t: &mut Tables) {
    let (code, exits) = (t.code.len(), t.exits.len());
    let transfers = t.transfers.len();
    let word = match rng.below(24) {
        0 if transfers > 0 => pack(*rng.pick(&[18, 31, 32, 127, 128, 255]), rng.below(3) as u32),
        0 => pack(*rng.pick(&[16, 17, 31, 32, 127, 128, 255]), rng.below(3) as u32),
        1..=6 if transfers > 0 && rng.chance(40) => pack(*rng.pick(&[READ, PRINT]), over_operand(rng, transfers)),
        1 => pack(HLT, over_operand(rng, 2)),
        2 => pack(CON, over_operand(rng, t.constants.len())),
        3 => pack(LOD, over_operand(rng, t.cells as usize)),
        4 => pack(STO, over_operand(rng, t.cells as usize)),
        5 => pack(LDE, over_operand(rng, t.elements.len())),
        6 => pack(STE, over_operand(rng, t.elements.len())),
        7..=12 => pack(*rng.pick(&[ADD, SUB, MUL, DIV, NEG]), over_operand(rng, 1)),
        13 => pack(JMP, over_operand(rng, code)),
        14 => pack(DOI, over_operand(rng, t.dos.len())),
        15 => pack(DOE, over_operand(rng, t.dos.len())),
        16 => pack(BR3, over_operand(rng, exits - 2)),
        17 => {
            let first = rng.below(exits - 2);
            t.exits[first + rng.below(3)] = over(rng, code as u32);
            pack(BR3, first as u32)
        }
        18 => pack(BRC, over_operand(rng, exits)),
        19 => brc(t, 0, rng.below(2) as u32),
        20 => brc(t, 0, over(rng, 11)),
        21 => {
            let first = exits - rng.range(1, 2);
            brc(t, first, rng.range(2, 10) as u32)
        }
        22 => brc(t, 0, rng.range(exits.min(10), 10) as u32),
        _ => {
            t.exits[rng.range(1, 2)] = over(rng, code as u32);
            brc(t, 0, 2)
        }
    };
    let at = rng.below(code);
    t.code[at] = word;
}

fn brc(t: &mut Tables, first: usize, count: u32) -> u32 {
    t.exits[first] = count;
    pack(BRC, first as u32)
}

/// Code that breaks no rule but 44.
fn break_heights(rng: &mut Rng, t: &mut Tables) {
    let length = rng.below(8);
    let (mut code, height) = straight_code(rng, t, length);
    let push = pack(CON, 0);
    match rng.below(4) {
        0 => {
            // A pop of one number more than there is.
            let operation = *rng.pick(&[STO, STE, ADD, SUB, MUL, DIV, NEG, DOI]);
            let (pops, _) = pops_pushes(operation);
            (pops..=height).for_each(|_| code.push(pack(STO, 0)));
            (height + 1..pops).for_each(|_| code.push(push));
            code.extend([pack(operation, 0), pack(HLT, 0)]);
        }
        1 => {
            (height..=STACK).for_each(|_| code.push(pack(*rng.pick(&[CON, LOD, LDE]), 0)));
            code.push(pack(HLT, 0));
        }
        2 => code.push(push),
        _ => {
            let at = code.len() as u32;
            t.exits = vec![at + 2, at + 3, *rng.pick(&[at + 2, at + 3])];
            code.extend([push, pack(BR3, 0), push, pack(HLT, 0)]);
        }
    }
    let last = code.len() as u32 - 1;
    t.dos.iter_mut().for_each(|entry| entry.body = entry.body.min(last));
    t.statements
        .iter_mut()
        .for_each(|entry| entry.address = entry.address.min(last));
    t.code = code;
}

/// A number over k digits.
fn too_long(rng: &mut Rng, k: u32) -> i64 {
    let power = 10i64.pow(k);
    *rng.pick(&[
        power,
        power + 1,
        i64::MAX,
        -power,
        -power - 1,
        -i64::MAX,
        i64::MIN,
        i64::MIN,
    ])
}

/// A store that is too short, or has a cell over k digits.
pub fn broken_store(rng: &mut Rng, k: u32, cells: usize) -> Vec<i64> {
    let past = rng.below(3);
    let mut store = super::store(rng, k, cells + past);
    if cells == 0 {
        return store;
    }
    let at = rng.below(cells);
    if rng.chance(25) {
        store.truncate(if rng.chance(50) { cells - 1 } else { at });
    } else {
        store[at] = too_long(rng, k);
    }
    store
}

/// A made-up state that 52 lets pass, with anything above the height.
pub fn right_state(rng: &mut Rng, k: u32, heights: &Heights) -> State {
    let reached: Vec<(usize, u8)> = heights
        .iter()
        .enumerate()
        .filter_map(|(at, h)| h.map(|h| (at, h)))
        .collect();
    let (index, height) = *rng.pick(&reached);
    let mut state = State::fresh();
    state.index = index as u32;
    state.height = height.into();
    state.mark = if rng.chance(50) {
        0
    } else {
        rng.below(heights.len() + 1) as u32
    };
    state
        .places
        .iter_mut()
        .take(height.into())
        .for_each(|place| *place = value(rng, k));
    if rng.chance(30) {
        state.places[height.into()..].fill(too_long(rng, k));
    }
    state
}

/// The same with one thing wrong, or right after all where there is nothing to be wrong.
pub fn broken_state(rng: &mut Rng, k: u32, heights: &Heights) -> State {
    let mut state = right_state(rng, k, heights);
    let code = heights.len() as u32;
    match rng.below(7) {
        0 => state.index = over(rng, code),
        1 => {
            let never: Vec<usize> = (0..heights.len()).filter(|index| heights[*index].is_none()).collect();
            if !never.is_empty() {
                state.index = *rng.pick(&never) as u32;
            }
        }
        2 => {
            state.height = *rng.pick(&[state.height + 1, STACK as u32, STACK as u32 + 1, 1 << 31, u32::MAX]);
            state.places = [0; STACK];
        }
        3 => state.height = rng.below(state.height.max(1) as usize) as u32,
        4 => state.mark = over(rng, code + 1),
        _ => {
            if state.height > 0 {
                state.places[rng.below(state.height as usize)] = too_long(rng, k);
            }
        }
    }
    state
}
