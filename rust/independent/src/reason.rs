//! Which of the separate reasons in the paper's lines 41 to 44 and 50 to 52 a refusal has, for tests to count. A reason
//! begins with its number.

mod transfers;

use std::collections::BTreeSet;

use crate::check::{instruction_right, judge, successors, Heights};
use crate::level::Level;
use crate::limits::{CELLS, STACK};
use crate::machine::State;
use crate::number::{fits, power};
use crate::object::{unpack, word_at, DoEntry, Edition, ElementEntry, NameEntry, Tables};
use crate::operation::*;
use crate::refusal::Refusal;
pub use transfers::CARD_REASONS;

type Reason = &'static str;

/// Every reason of the base.
pub const REASONS: [Reason; 72] = [
    "41 k 0",
    "41 k over 9",
    "41 cells",
    "41 constants",
    "41 elements",
    "41 exits",
    "41 DOs",
    "41 code",
    "41 statements",
    "41 names",
    "42 constant",
    "42 element: rows 0",
    "42 element: columns 0",
    "42 element: span",
    "42 element: first multiplier",
    "42 element: second multiplier",
    "42 element: first addend",
    "42 element: second addend",
    "42 element: first cell",
    "42 element: second cell",
    "42 DO: variable",
    "42 DO: limit",
    "42 DO: step",
    "42 DO: address",
    "42 statement: address",
    "42 name: columns without rows",
    "42 name: plain cell",
    "42 name: span of rows",
    "42 name: span of rows and columns",
    "42 name: first letter",
    "42 name: letters",
    "42 name: over six",
    "42 name: not blank-filled",
    "43 unknown operation",
    "43 HLT: operand",
    "43 CON: operand",
    "43 LOD: operand",
    "43 STO: operand",
    "43 LDE: operand",
    "43 STE: operand",
    "43 ADD: operand",
    "43 SUB: operand",
    "43 MUL: operand",
    "43 DIV: operand",
    "43 NEG: operand",
    "43 JMP: operand",
    "43 BR3: exit outside body 3",
    "43 BR3: target",
    "43 BRC: count outside body 3",
    "43 BRC: count below 2",
    "43 BRC: count above 10",
    "43 BRC: exit outside body 3",
    "43 BRC: target",
    "43 DOI: operand",
    "43 DOE: operand",
    "43 in unreachable code",
    "44 nothing to pop",
    "44 over 40",
    "44 code runs out",
    "44 two heights",
    "50 store short",
    "51 cell above",
    "51 cell below",
    "51 cell the least i64",
    "52 index outside the code",
    "52 never reached",
    "52 above its height",
    "52 below its height",
    "52 number above",
    "52 number below",
    "52 number the least i64",
    "52 mark outside the code",
];

/// The reasons of the base's run.
pub fn of_run(object: &[u8], store: &[i64], state: &State) -> Vec<Reason> {
    of_run_at(Level::Base, object, store, state)
}

/// All reasons that hold where a run of these is refused; none if it is not, or by 40.
pub fn of_run_at(level: Level, object: &[u8], store: &[i64], state: &State) -> Vec<Reason> {
    let found = of_object_at(level, object);
    let (Ok(t), true) = (level.open(object), found.is_empty()) else {
        return found;
    };
    let found = of_store(&t, store);
    let (Ok(heights), true) = (judge(&t), found.is_empty()) else {
        return found;
    };
    of_state(&t, &heights, state)
}

/// The reasons of the base's check.
pub fn of_object(object: &[u8]) -> Vec<Reason> {
    of_object_at(Level::Base, object)
}

/// All reasons that hold where the check refuses.
pub fn of_object_at(level: Level, object: &[u8]) -> Vec<Reason> {
    match (level.check(object), level.open(object)) {
        (Err(Refusal { number: 41, .. }), _) => of_limits(object),
        (
            Err(Refusal {
                number: 42,
                place,
                kind,
            }),
            Ok(t),
        ) => of_entry(&t, kind, place as usize),
        (Err(Refusal { number: 43, place, .. }), Ok(t)) => vec![of_instruction(&t, place as usize)],
        (Err(Refusal { number: 44, .. }), Ok(t)) => of_heights(&t),
        _ => Vec::new(),
    }
}

/// Whether the check refuses by 43 at an instruction that no way from instruction 0 leads to.
pub fn unreachable(object: &[u8]) -> bool {
    let (Err(Refusal { number: 43, place, .. }), Ok(t)) = (Level::Base.check(object), Level::Base.open(object)) else {
        return false;
    };
    let mut met = BTreeSet::new();
    let mut work = vec![0];
    while let Some(index) = work.pop() {
        if index < t.code.len() && met.insert(index) && instruction_right(&t, index) {
            work.extend(successors(&t, index));
        }
    }
    !met.contains(&(place as usize))
}

fn held(reasons: &[(bool, Reason)]) -> Vec<Reason> {
    reasons
        .iter()
        .filter(|(holds, _)| *holds)
        .map(|(_, reason)| *reason)
        .collect()
}

fn of_limits(object: &[u8]) -> Vec<Reason> {
    let (k, cells) = (word_at(object, 4), word_at(object, 8));
    let edition = Edition::named(word_at(object, 0)).unwrap_or(Edition::One);
    let (bytes, limits) = (edition.entry_bytes(), edition.entry_limits());
    let over = |body: &usize| word_at(object, 24 + 12 * body) as usize / bytes[*body] > limits[*body];
    let reasons = [&REASONS[3..10], &CARD_REASONS[..3]].concat();
    let mut found = held(&[
        (k == 0, "41 k 0"),
        (k > 9, "41 k over 9"),
        (cells as usize > CELLS, "41 cells"),
    ]);
    found.extend((0..bytes.len()).filter(over).map(|body| reasons[body]));
    found
}

fn of_entry(t: &Tables, kind: u32, entry: usize) -> Vec<Reason> {
    match kind {
        1 => vec!["42 constant"],
        2 => of_element(t, &t.elements[entry]),
        4 => of_do(t, &t.dos[entry]),
        6 => vec!["42 statement: address"],
        7 => of_name(t, &t.names[entry]),
        _ => transfers::of_entry(t, kind, entry),
    }
}

fn of_element(t: &Tables, e: &ElementEntry) -> Vec<Reason> {
    let [s, u] = &e.subscripts;
    let span = u128::from(e.base) + u128::from(e.rows) * u128::from(e.columns);
    held(&[
        (e.rows == 0, "42 element: rows 0"),
        (e.columns == 0, "42 element: columns 0"),
        (span > u128::from(t.cells), "42 element: span"),
        (!fits(t.k, s.multiplier.into()), "42 element: first multiplier"),
        (!fits(t.k, u.multiplier.into()), "42 element: second multiplier"),
        (!fits(t.k, s.addend.into()), "42 element: first addend"),
        (!fits(t.k, u.addend.into()), "42 element: second addend"),
        (s.cell >= t.cells, "42 element: first cell"),
        (u.cell >= t.cells, "42 element: second cell"),
    ])
}

fn of_do(t: &Tables, d: &DoEntry) -> Vec<Reason> {
    held(&[
        (d.variable >= t.cells, "42 DO: variable"),
        (d.limit >= t.cells, "42 DO: limit"),
        (d.step >= t.cells, "42 DO: step"),
        (d.body as usize >= t.code.len(), "42 DO: address"),
    ])
}

fn of_name(t: &Tables, n: &NameEntry) -> Vec<Reason> {
    let outside = u64::from(n.first) + n.size() > u64::from(t.cells);
    let end = n.name.iter().position(|c| *c == b' ').unwrap_or(8);
    let (word, fill) = n.name.split_at(end);
    let letter = |c: &u8| c.is_ascii_uppercase() || c.is_ascii_digit();
    held(&[
        (n.rows == 0 && n.columns != 0, "42 name: columns without rows"),
        (n.rows == 0 && outside, "42 name: plain cell"),
        (n.rows != 0 && n.columns == 0 && outside, "42 name: span of rows"),
        (
            n.rows != 0 && n.columns != 0 && outside,
            "42 name: span of rows and columns",
        ),
        (!(b'I'..=b'N').contains(&n.name[0]), "42 name: first letter"),
        (!word.iter().skip(1).all(letter), "42 name: letters"),
        (end > 6, "42 name: over six"),
        (fill.iter().any(|c| *c != b' '), "42 name: not blank-filled"),
    ])
}

fn of_instruction(t: &Tables, index: usize) -> Reason {
    let (operation, operand) = unpack(t.code[index]);
    let (first, exits) = (operand as usize, t.exits.len());
    match operation {
        BR3 if first + 3 > exits => "43 BR3: exit outside body 3",
        BR3 => "43 BR3: target",
        BRC => match t.exits.get(first) {
            None => "43 BRC: count outside body 3",
            Some(0..=1) => "43 BRC: count below 2",
            Some(11..) => "43 BRC: count above 10",
            Some(count) if first + 1 + *count as usize > exits => "43 BRC: exit outside body 3",
            Some(_) => "43 BRC: target",
        },
        HLT => "43 HLT: operand",
        CON => "43 CON: operand",
        LOD => "43 LOD: operand",
        STO => "43 STO: operand",
        LDE => "43 LDE: operand",
        STE => "43 STE: operand",
        ADD => "43 ADD: operand",
        SUB => "43 SUB: operand",
        MUL => "43 MUL: operand",
        DIV => "43 DIV: operand",
        NEG => "43 NEG: operand",
        JMP => "43 JMP: operand",
        DOI => "43 DOI: operand",
        DOE => "43 DOE: operand",
        READ if t.edition >= Edition::Two => "43 READ: operand",
        PRINT if t.edition >= Edition::Two => "43 PRINT: operand",
        _ => "43 unknown operation",
    }
}

/// What goes wrong on the ways from instruction 0, each instruction taken at the height it is first met at.
fn of_heights(t: &Tables) -> Vec<Reason> {
    let mut table = vec![None; t.code.len()];
    let mut work = vec![(0, 0)];
    let mut found = BTreeSet::new();
    while let Some((index, height)) = work.pop() {
        let (pops, pushes) = t.code.get(index).map_or((0, 0), |word| pops_pushes(unpack(*word).0));
        match table.get(index) {
            None => drop(found.insert("44 code runs out")),
            Some(Some(known)) if *known == height => {}
            Some(Some(_)) => drop(found.insert("44 two heights")),
            Some(None) if height < pops => drop(found.insert("44 nothing to pop")),
            Some(None) if height - pops + pushes > STACK => drop(found.insert("44 over 40")),
            Some(None) => {
                table[index] = Some(height);
                work.extend(
                    successors(t, index)
                        .into_iter()
                        .map(|next| (next, height - pops + pushes)),
                );
            }
        }
    }
    found.into_iter().collect()
}

fn of_store(t: &Tables, store: &[i64]) -> Vec<Reason> {
    let Some(cells) = store.get(..t.cells as usize) else {
        return vec!["50 store short"];
    };
    of_numbers(t.k, cells, ["51 cell above", "51 cell below", "51 cell the least i64"])
}

/// Numbers over k digits: above, below, the least there is.
fn of_numbers(k: u32, numbers: &[i64], [above, below, least]: [Reason; 3]) -> Vec<Reason> {
    let any = |wrong: &dyn Fn(i64) -> bool| numbers.iter().any(|number| wrong(*number));
    held(&[
        (any(&|n| i128::from(n) >= power(k)), above),
        (any(&|n| i128::from(n) <= -power(k) && n != i64::MIN), below),
        (any(&|n| n == i64::MIN), least),
    ])
}

fn of_state(t: &Tables, heights: &Heights, state: &State) -> Vec<Reason> {
    let height = heights.get(state.index as usize).map(|height| height.map(u32::from));
    let right = height.flatten().unwrap_or(state.height);
    let mut found = held(&[
        (height.is_none(), "52 index outside the code"),
        (height == Some(None), "52 never reached"),
        (state.height > right, "52 above its height"),
        (state.height < right, "52 below its height"),
        (state.mark as usize > t.code.len(), "52 mark outside the code"),
    ]);
    let stack = &state.places[..STACK.min(state.height as usize)];
    let names = ["52 number above", "52 number below", "52 number the least i64"];
    found.extend(of_numbers(t.k, stack, names));
    found
}
