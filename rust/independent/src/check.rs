//! The checker: refusals 40 to 44, "lowest kind, then lowest entry".

mod transfers;

use crate::level::Level;
use crate::limits::{CELLS, STACK};
use crate::number::{digits_right, fits};
use crate::object::{unpack, word_at, DoEntry, Edition, ElementEntry, NameEntry, SubscriptEntry, Tables};
use crate::operation::*;
use crate::refusal::Refusal;
pub use transfers::{format_words, transfer_uses_right};
use transfers::{item_right, transfer_right, word_right};

/// "a table gives each instruction 0 to 40 or never" (None).
pub type Heights = Vec<Option<u8>>;

/// Checking in the base.
pub fn check(object: &[u8]) -> Result<(), Refusal> {
    Level::Base.check(object)
}

/// Opening in the base.
pub fn open(object: &[u8]) -> Result<Tables, Refusal> {
    Level::Base.open(object)
}

impl Level {
    pub fn check(self, object: &[u8]) -> Result<(), Refusal> {
        judge(&self.open(object)?).map(|_| ())
    }

    /// 40 and 41: an object whose bytes are tables of a right size.
    pub fn open(self, object: &[u8]) -> Result<Tables, Refusal> {
        let (edition, bodies) = find_bodies(self, object).ok_or(Refusal::whole(40))?;
        let (k, cells) = (word_at(object, 4), word_at(object, 8));
        let (bytes, limits) = (edition.entry_bytes(), edition.entry_limits());
        let too_many = (0..bodies.len()).any(|b| bodies[b].len() / bytes[b] > limits[b]);
        // "41: k not 1-9; cells or a table over its limit"
        if !digits_right(k) || cells as usize > CELLS || too_many {
            return Err(Refusal::whole(41));
        }
        Ok(Tables::from_bodies(edition, k, cells, &bodies))
    }
}

/// 42 to 44 on an opened object; its least table of heights if it breaks none.
pub fn judge(tables: &Tables) -> Result<Heights, Refusal> {
    entries_right(tables)?;
    if let Some(index) = (0..tables.code.len()).find(|index| !instruction_right(tables, *index)) {
        return Err(Refusal::in_body(43, index, 5));
    }
    heights(tables).ok_or(Refusal::whole(44))
}

/// "40: object or body length, contents or edition wrong, or no code at all".
fn find_bodies(level: Level, object: &[u8]) -> Option<(Edition, Vec<&[u8]>)> {
    let edition = Edition::named(u32::from_le_bytes(*object.first_chunk()?)).filter(|e| level.takes(*e))?;
    let contents = edition.contents_bytes();
    if object.len() < contents || word_at(object, 12) as usize != edition.bodies() {
        return None;
    }
    let mut rest = &object[contents..];
    let mut bodies = Vec::with_capacity(edition.bodies());
    for (index, entry) in edition.entry_bytes().iter().enumerate() {
        let at = 16 + 12 * index;
        let kind = word_at(object, at) as usize;
        let stands = word_at(object, at + 4) as usize;
        let length = word_at(object, at + 8) as usize;
        if kind != index + 1 || stands != object.len() - rest.len() || length % entry != 0 {
            return None;
        }
        let (body, after) = rest.split_at_checked(length)?;
        bodies.push(body);
        rest = after;
    }
    (rest.is_empty() && !bodies[4].is_empty()).then_some((edition, bodies))
}

/// 42, kind by kind, entry by entry.
fn entries_right(t: &Tables) -> Result<(), Refusal> {
    find_wrong(&t.constants, 1, |c| constant_right(t, *c))?;
    find_wrong(&t.elements, 2, |e| element_right(t, e))?;
    find_wrong(&t.dos, 4, |d| do_right(t, d))?;
    find_wrong(&t.statements, 6, |s| in_code(t, s.address))?;
    find_wrong(&t.names, 7, |n| name_right(t, n))?;
    if let Some(word) = (0..t.words.len()).find(|word| !word_right(t, *word)) {
        return Err(Refusal::in_body(42, word, 8));
    }
    find_wrong(&t.items, 9, |i| item_right(t, i))?;
    find_wrong(&t.transfers, 10, |x| transfer_right(t, x))
}

fn find_wrong<T>(entries: &[T], kind: u32, right: impl Fn(&T) -> bool) -> Result<(), Refusal> {
    match entries.iter().position(|entry| !right(entry)) {
        Some(entry) => Err(Refusal::in_body(42, entry, kind)),
        None => Ok(()),
    }
}

/// "constant .. over k digits"
pub fn constant_right(t: &Tables, constant: u32) -> bool {
    fits(t.k, i128::from(constant))
}

/// "multiplier or addend over k digits, rows or columns 0 in an element, a span or cell outside
/// the map"
pub fn element_right(t: &Tables, e: &ElementEntry) -> bool {
    let span = u128::from(e.base) + u128::from(e.rows) * u128::from(e.columns);
    let subscript_right = |s: &SubscriptEntry| {
        fits(t.k, i128::from(s.multiplier)) && fits(t.k, i128::from(s.addend)) && in_cells(t, s.cell)
    };
    e.rows != 0 && e.columns != 0 && span <= u128::from(t.cells) && e.subscripts.iter().all(subscript_right)
}

/// "a .. cell outside the map, a DO's .. address outside the code"
pub fn do_right(t: &Tables, d: &DoEntry) -> bool {
    [d.variable, d.limit, d.step].iter().all(|cell| in_cells(t, *cell)) && in_code(t, d.body)
}

/// "rows 0 but columns not in a name", the span, and the letters.
fn name_right(t: &Tables, n: &NameEntry) -> bool {
    let sizes_right = n.rows != 0 || n.columns == 0;
    let span = u128::from(n.first) + u128::from(n.size());
    sizes_right && span <= u128::from(t.cells) && letters_right(&n.name)
}

/// "a letter I-N with up to five letters or digits, blank-filled"
fn letters_right(name: &[u8; 8]) -> bool {
    let length = name.iter().position(|c| *c == b' ').unwrap_or(name.len());
    let (word, fill) = name.split_at(length);
    let first_right = word.first().is_some_and(|c| (b'I'..=b'N').contains(c));
    let rest_right = word.iter().all(|c| c.is_ascii_uppercase() || c.is_ascii_digit());
    first_right && rest_right && length <= 6 && fill.iter().all(|c| *c == b' ')
}

fn in_cells(t: &Tables, cell: u32) -> bool {
    cell < t.cells
}

fn in_code(t: &Tables, address: u32) -> bool {
    (address as usize) < t.code.len()
}

/// Whether an instruction does not break 43.
#[inline]
pub fn instruction_right(t: &Tables, index: usize) -> bool {
    let (operation, operand) = unpack(t.code[index]);
    let within = |length: usize| (operand as usize) < length;
    match operation {
        HLT => operand <= 1,
        CON => within(t.constants.len()),
        LOD | STO => in_cells(t, operand),
        LDE | STE => within(t.elements.len()),
        ADD | SUB | MUL | DIV | NEG => operand == 0,
        JMP => in_code(t, operand),
        BR3 | BRC => targets(t, operation, operand).is_some(),
        DOI | DOE => within(t.dos.len()),
        READ | PRINT => within(t.transfers.len()),
        _ => false,
    }
}

/// The targets of a BR3 or BRC: None if "an exit that the instruction uses" is "outside body 3,
/// its target outside the code, or a BRC count not 2-10".
pub fn targets(t: &Tables, operation: u32, operand: u32) -> Option<&[u32]> {
    let first = operand as usize;
    let used = if operation == BR3 {
        t.exits.get(first..first + 3)?
    } else {
        let count = *t.exits.get(first)? as usize;
        if !(2..=10).contains(&count) {
            return None;
        }
        t.exits.get(first + 1..first + 1 + count)?
    };
    used.iter().all(|target| in_code(t, *target)).then_some(used)
}

/// 44: the least table of heights, from instruction 0, or None if there is no table.
pub fn heights(t: &Tables) -> Option<Heights> {
    let mut table: Heights = vec![None; t.code.len()];
    let mut work = vec![(0, 0)];
    while let Some((index, height)) = work.pop() {
        // "each of its successors exists and has the resulting height"
        match *table.get(index)? {
            Some(known) if known == height => continue,
            Some(_) => return None,
            None => table[index] = Some(height),
        }
        let after = height_after(t, index, height)?;
        each_successor(t, index, |next| work.push((next, after)));
    }
    Some(table)
}

/// "one with a height can pop what it pops"; heights are 0 to 40.
fn height_after(t: &Tables, index: usize, height: u8) -> Option<u8> {
    let (pops, pushes) = pops_pushes(unpack(t.code[index]).0);
    let after = usize::from(height).checked_sub(pops)? + pushes;
    (after <= STACK).then_some(after as u8)
}

/// "HLT has no successor, 11-13 their targets, DOE its body and the next, others the next."
fn each_successor(t: &Tables, index: usize, mut to: impl FnMut(usize)) {
    let (operation, operand) = unpack(t.code[index]);
    match operation {
        HLT => {}
        JMP => to(operand as usize),
        BR3 | BRC => {
            let targets = targets(t, operation, operand).unwrap_or(&[]);
            targets.iter().for_each(|target| to(*target as usize));
        }
        DOE => {
            to(t.dos[operand as usize].body as usize);
            to(index + 1);
        }
        _ => to(index + 1),
    }
}

pub fn successors(t: &Tables, index: usize) -> Vec<usize> {
    let mut list = Vec::new();
    each_successor(t, index, |next| list.push(next));
    list
}
