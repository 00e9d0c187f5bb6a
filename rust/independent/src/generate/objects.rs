//! Objects made of random tables, and damage to objects.

use super::{transfers, Rng};
use crate::level::Level;
use crate::limits::STACK;
use crate::object::*;
use crate::operation::*;

/// Edition 1 in the base, and now and then at any level.
pub fn made_edition(level: Level, rng: &mut Rng) -> Edition {
    if level > Level::Base && rng.chance(15) {
        return Edition::One;
    }
    level.edition()
}

/// A made-up object of the base.
pub fn made_object(rng: &mut Rng) -> Vec<u8> {
    made_object_at(Level::Base, rng)
}

/// An object of a few random entries, its contents right.
pub fn made_object_at(level: Level, rng: &mut Rng) -> Vec<u8> {
    if rng.chance(5) {
        return tall_object(rng);
    }
    let edition = made_edition(level, rng);
    let mut t = Tables::empty_of(edition, rng.range(1, 9) as u32);
    t.cells = rng.range(1, 8) as u32;
    let code = rng.range(1, 9);
    t.constants = (0..rng.below(4)).map(|_| rng.below(10) as u32).collect();
    t.exits = (0..rng.below(8))
        .map(|n| if n == 0 { 2 } else { rng.below(code) as u32 })
        .collect();
    t.dos = (0..rng.below(3)).map(|_| made_do(rng, t.cells, code)).collect();
    t.elements = (0..rng.below(3)).map(|_| made_element(rng, t.cells)).collect();
    t.statements = (0..rng.below(4)).map(|n| made_statement(rng, n, code)).collect();
    t.names = (0..rng.below(3)).map(|n| made_name(rng, n, t.cells)).collect();
    if edition >= Edition::Two {
        transfers::fill(rng, &mut t);
    }
    t.code = (0..code).map(|_| made_word(rng, &t, code)).collect();
    if rng.chance(60) {
        // A halt at the end lets more codes have their heights.
        t.code[code - 1] = pack(HLT, 0);
    }
    if rng.chance(15) {
        edge(rng, &mut t);
    }
    t.to_bytes()
}

/// An object that fills the stack to its top or nearly.
fn tall_object(rng: &mut Rng) -> Vec<u8> {
    let mut t = Tables::empty(5);
    t.cells = 1;
    t.constants = vec![7];
    t.code = vec![pack(CON, 0); rng.range(STACK - 2, STACK + 1)];
    for _ in 0..rng.below(5) {
        t.code.push(pack(*rng.pick(&[CON, LOD, STO, ADD, MUL, NEG, NEG]), 0));
    }
    t.code.push(pack(HLT, 1));
    t.to_bytes()
}

pub fn made_do(rng: &mut Rng, cells: u32, code: usize) -> DoEntry {
    let mut cell = || rng.below(cells as usize) as u32;
    DoEntry {
        variable: cell(),
        limit: cell(),
        step: cell(),
        body: rng.below(code) as u32,
    }
}

pub fn made_element(rng: &mut Rng, cells: u32) -> ElementEntry {
    let rows = rng.range(1, cells as usize) as u32;
    let columns = cells / rows;
    let base = rng.below((cells - rows * columns + 1) as usize) as u32;
    let mut subscript = || SubscriptEntry {
        multiplier: rng.below(3) as u32,
        cell: rng.below(cells as usize) as u32,
        addend: rng.below(4) as i32 - 1,
    };
    ElementEntry {
        base,
        rows,
        columns,
        subscripts: [subscript(), subscript()],
    }
}

pub fn made_statement(rng: &mut Rng, index: usize, code: usize) -> StatementEntry {
    StatementEntry {
        sequence: index as u32 + 1,
        number: 0,
        address: rng.below(code) as u32,
    }
}

pub fn made_name(rng: &mut Rng, index: usize, cells: u32) -> NameEntry {
    let mut name = *b"I       ";
    name[1] = b'0' + index as u8;
    NameEntry {
        name,
        first: rng.below(cells as usize) as u32,
        rows: 0,
        columns: 0,
    }
}

/// A word whose operand is mostly right.
pub fn made_word(rng: &mut Rng, t: &Tables, code: usize) -> u32 {
    let mut operation = *rng.pick(&[
        HLT, CON, CON, LOD, LOD, STO, LDE, STE, ADD, SUB, MUL, DIV, NEG, JMP, BR3, BRC, DOI, DOE,
    ]);
    if t.edition >= Edition::Two && rng.chance(15) {
        operation = *rng.pick(&[READ, PRINT]);
    }
    let length = match operation {
        HLT => 2,
        CON => t.constants.len(),
        LOD | STO => t.cells as usize,
        LDE | STE => t.elements.len(),
        JMP => code,
        BR3 => t.exits.len().saturating_sub(2),
        BRC => t.exits.len().min(1),
        DOI | DOE => t.dos.len(),
        READ | PRINT => t.transfers.len(),
        _ => 1,
    };
    if length == 0 {
        return if t.cells == 0 {
            pack(HLT, 0)
        } else {
            pack(LOD, rng.below(t.cells as usize) as u32)
        };
    }
    let slack = usize::from(rng.chance(2));
    pack(operation, rng.below(length + slack) as u32)
}

/// An object with damage: bytes changed, its length wrong, bodies changed for each other, or
/// entries and words put at their edges with the contents made right again.
pub fn damaged_object(rng: &mut Rng, object: &[u8]) -> Vec<u8> {
    let mut bytes = object.to_vec();
    match rng.below(10) {
        0 => change_bytes(rng, &mut bytes),
        1 => change_contents(rng, &mut bytes),
        2 => change_length(rng, &mut bytes),
        3 => return swap_bodies(rng, object),
        _ => return damaged_tables(rng, object),
    }
    bytes
}

fn change_bytes(rng: &mut Rng, bytes: &mut [u8]) {
    for _ in 0..rng.range(1, 3) {
        if !bytes.is_empty() {
            let at = rng.below(bytes.len());
            bytes[at] = *rng.pick(&[0, 1, 0x7F, 0x80, 0xFF, rng.0 as u8, bytes[at].wrapping_add(1)]);
        }
    }
}

/// One word of the contents.
fn change_contents(rng: &mut Rng, bytes: &mut [u8]) {
    let edition = bytes
        .first_chunk()
        .and_then(|word| Edition::named(u32::from_le_bytes(*word)));
    let contents = edition.unwrap_or(Edition::One).contents_bytes();
    if bytes.len() < contents {
        return;
    }
    let at = 4 * rng.below(contents / 4);
    let old = word_at(bytes, at);
    let new = match rng.below(8) {
        0 => 0,
        1 => u32::MAX,
        2 => old.wrapping_add(1),
        3 => old.wrapping_sub(1),
        4 => old.wrapping_add(4),
        5 => old.wrapping_sub(4),
        6 => rng.below(12) as u32,
        _ => rng.draw() as u32,
    };
    bytes[at..at + 4].copy_from_slice(&new.to_le_bytes());
}

fn change_length(rng: &mut Rng, bytes: &mut Vec<u8>) {
    match rng.below(3) {
        0 => bytes.truncate(rng.below(bytes.len() + 1)),
        1 => bytes.truncate(bytes.len().saturating_sub(rng.range(1, 20))),
        _ => bytes.extend(vec![0; rng.range(1, 20)]),
    }
}

/// Two bodies change places; the contents tell it, or tell only the lengths.
fn swap_bodies(rng: &mut Rng, object: &[u8]) -> Vec<u8> {
    let Ok(t) = Level::Cards.open(object) else {
        return object.to_vec();
    };
    let mut bodies = t.bodies();
    let (one, other) = (rng.below(bodies.len()), rng.below(bodies.len()));
    bodies.swap(one, other);
    let mut kinds: Vec<u32> = (1..=bodies.len() as u32).collect();
    if rng.chance(30) {
        kinds.swap(one, other);
    }
    write(&t, &kinds, &bodies)
}

fn write(t: &Tables, kinds: &[u32], bodies: &[Vec<u8>]) -> Vec<u8> {
    let mut words = vec![t.edition.word(), t.k, t.cells, bodies.len() as u32];
    let mut first = t.edition.contents_bytes();
    for (kind, body) in kinds.iter().zip(bodies) {
        words.extend([*kind, first as u32, body.len() as u32]);
        first += body.len();
    }
    let contents = words.into_iter().flat_map(u32::to_le_bytes);
    contents.chain(bodies.iter().flatten().copied()).collect()
}

fn damaged_tables(rng: &mut Rng, object: &[u8]) -> Vec<u8> {
    let Ok(mut t) = Level::Cards.open(object) else {
        return object.to_vec();
    };
    for _ in 0..rng.range(1, 2) {
        match rng.below(12) {
            0 => cut_or_grow(rng, &mut t),
            1 => {
                t.cells = *rng.pick(&[
                    0,
                    1,
                    t.cells.saturating_sub(1),
                    t.cells.saturating_add(1),
                    4096,
                    4097,
                    u32::MAX,
                ])
            }
            2 => t.k = *rng.pick(&[0, 1, 2, 9, 10, u32::MAX, t.k]),
            3..=5 => code_edge(rng, &mut t),
            _ => edge(rng, &mut t),
        }
    }
    t.to_bytes()
}

/// A table loses an entry, gains one, or goes to its limit or one over.
fn cut_or_grow(rng: &mut Rng, t: &mut Tables) {
    let kind = rng.below(t.edition.bodies());
    let how = rng.below(4);
    let limit = t.edition.entry_limits()[kind];
    match kind {
        0 => resize(&mut t.constants, how, limit),
        1 => resize(&mut t.elements, how, limit),
        2 => resize(&mut t.exits, how, limit),
        3 => resize(&mut t.dos, how, limit),
        4 => resize(&mut t.code, how, limit),
        5 => resize(&mut t.statements, how, limit),
        6 => resize(&mut t.names, how, limit),
        7 => resize(&mut t.words, how, limit),
        8 => resize(&mut t.items, how, limit),
        _ => resize(&mut t.transfers, how, limit),
    }
}

fn resize<T: Clone>(table: &mut Vec<T>, how: usize, limit: usize) {
    let Some(last) = table.last().cloned() else { return };
    let length = match how {
        0 => table.len() - 1,
        1 => table.len() + 1,
        2 => limit,
        _ => limit + 1,
    };
    table.resize(length, last);
}

/// An instruction is put in, left out, moved, or given another operation or operand.
fn code_edge(rng: &mut Rng, t: &mut Tables) {
    if t.code.is_empty() {
        return;
    }
    let at = rng.below(t.code.len());
    let (operation, operand) = unpack(t.code[at]);
    match rng.below(8) {
        0 => drop(t.code.remove(at)),
        1 => t.code.insert(at, made_word(rng, t, t.code.len())),
        2 => {
            let other = rng.below(t.code.len());
            t.code.swap(at, other);
        }
        3 => t.code[at] = pack(rng.below(17) as u32, operand),
        4 => t.code[at] = pack(*rng.pick(&[16, 17, 127, 128, 255]), operand),
        5 => t.code[at] = made_word(rng, t, t.code.len()),
        _ => {
            let edges = edges(t);
            t.code[at] = pack(operation, *rng.pick(&edges));
        }
    }
}

/// One word of one entry, other than code, is put at an edge.
fn edge(rng: &mut Rng, t: &mut Tables) {
    let edges = edges(t);
    let value = *rng.pick(&edges);
    if t.edition >= Edition::Two && rng.chance(40) {
        return transfers::edge(rng, t, value);
    }
    match rng.below(6) {
        0 => change(rng, &mut t.constants, |_, c| *c = value),
        1 => change(rng, &mut t.elements, |rng, e| set_element_word(rng, e, value)),
        2 => change(rng, &mut t.exits, |_, x| *x = value),
        3 => change(rng, &mut t.dos, |rng, d| match rng.below(4) {
            0 => d.variable = value,
            1 => d.limit = value,
            2 => d.step = value,
            _ => d.body = value,
        }),
        4 => change(rng, &mut t.statements, |rng, s| match rng.below(3) {
            0 => s.sequence = value,
            1 => s.number = value,
            _ => s.address = value,
        }),
        _ => change(rng, &mut t.names, |rng, n| match rng.below(5) {
            0 => n.first = value,
            1 => n.rows = value,
            2 => n.columns = value,
            _ => n.name[rng.below(8)] = *rng.pick(b" AHINOZ059_@[/:i\x00\xFF"),
        }),
    }
}

fn set_element_word(rng: &mut Rng, e: &mut ElementEntry, value: u32) {
    let subscript = &mut e.subscripts[rng.below(2)];
    match rng.below(9) {
        0 => e.base = value,
        1 => e.rows = value,
        2 => e.columns = value,
        3..=4 => subscript.multiplier = value,
        5..=6 => subscript.cell = value,
        _ => subscript.addend = value as i32,
    }
}

fn change<T>(rng: &mut Rng, table: &mut [T], how: impl Fn(&mut Rng, &mut T)) {
    if !table.is_empty() {
        let at = rng.below(table.len());
        how(rng, &mut table[at]);
    }
}

/// The words at which some rule turns.
fn edges(t: &Tables) -> Vec<u32> {
    let power = 10u32.checked_pow(t.k).unwrap_or(u32::MAX);
    let near = [
        t.cells,
        t.code.len() as u32,
        t.exits.len() as u32,
        t.constants.len() as u32,
        t.dos.len() as u32,
        power,
    ];
    let mut edges = vec![
        0,
        1,
        2,
        3,
        10,
        11,
        65_536,
        0xFF_FFFF,
        i32::MAX as u32,
        1 << 31,
        u32::MAX,
    ];
    if t.edition >= Edition::Two {
        edges.extend([t.words.len() as u32, t.items.len() as u32, 99_999, 100_000]);
    }
    edges.extend(near.iter().flat_map(|n| [n.wrapping_sub(1), *n, n.wrapping_add(1)]));
    edges.extend([
        power.wrapping_neg(),
        (power - 1).wrapping_neg(),
        (t.exits.len() as u32).wrapping_sub(3),
    ]);
    edges
}
