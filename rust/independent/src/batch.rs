//! The line protocol: one request a line, one answer a line.

mod meaning;

use crate::lent::Lent;
use crate::level::Level;
use crate::limits::STACK;
use crate::machine::{Ran, State};
use crate::refusal::Refusal;

const UNREADABLE: &str = "BAD REQUEST";

/// The base's answer to one request, neither with a line end.
pub fn answer(request: &str) -> String {
    Level::Base.answer(request)
}

impl Level {
    /// The answer to one request, neither with a line end.
    pub fn answer(self, request: &str) -> String {
        read(self, request).unwrap_or_else(|| UNREADABLE.to_string())
    }
}

/// None: the request cannot be read.
fn read(level: Level, request: &str) -> Option<String> {
    let fields: Vec<&str> = request.split(' ').collect();
    match fields[..] {
        ["compile", k, deck, room] => Some(compile(level, digits(level, k)?, &bytes(deck)?, unsigned(room)?)),
        ["check", object] => Some(check(level, &bytes(object)?)),
        ["run", object, store, state, allowance, ref lent @ ..] => {
            let (object, store, state) = (bytes(object)?, numbers(store)?, read_state(state)?);
            let (cards, room) = read_lent(level, lent)?;
            Some(run(
                level,
                &object,
                store,
                state,
                unsigned(allowance)?,
                &mut Lent::new(&cards, room),
            ))
        }
        ["bench", object, store, allowance, ref lent @ ..] => {
            let (object, store) = (bytes(object)?, numbers(store)?);
            let (cards, room) = read_lent(level, lent)?;
            Some(bench(
                level,
                &object,
                store,
                unsigned(allowance)?,
                &mut Lent::new(&cards, room),
            ))
        }
        ["meaning", k, deck, most, store, ref lent @ ..] if level >= Level::Cards => {
            let (k, deck, store) = (digits(level, k)?, bytes(deck)?, numbers(store)?);
            let (cards, room) = read_lent(level, lent)?;
            let lent = &mut Lent::new(&cards, room);
            Some(meaning::answer(level, k, &deck, unsigned(most)?, &store, lent))
        }
        ["map", object] => Some(map(level, &bytes(object)?)),
        ["program", input] => Some(level.program(&bytes(input)?).join(" | ")),
        _ => None,
    }
}

/// The digits asked for. From 2026-01 on they may be negative, and are then wrong as 0 is.
fn digits(level: Level, field: &str) -> Option<u32> {
    match field.strip_prefix('-') {
        Some(below) if level >= Level::Cards => all_digits(below).then_some(0),
        _ => unsigned(field),
    }
}

/// "two fields: the cards lent and the room for lines, in lines"; none in the base.
fn read_lent(level: Level, fields: &[&str]) -> Option<(Vec<u8>, usize)> {
    match (level, fields) {
        (Level::Base, []) => Some((Vec::new(), 0)),
        (Level::Cards, [cards, room]) => Some((bytes(cards)?, unsigned(room)? as usize)),
        _ => None,
    }
}

fn compile(level: Level, k: u32, deck: &[u8], room: u32) -> String {
    // No object needs more room than the longest.
    let mut out = vec![0; level.edition().longest().min(room as usize)];
    match level.compile(k, deck, &mut out) {
        Ok(length) => format!("OK {}", hexadecimal(&out[..length])),
        Err(refusal) => format!("REFUSED {} {}", refusal.number, refusal.place),
    }
}

fn check(level: Level, object: &[u8]) -> String {
    level.check(object).map_or_else(refused, |()| "OK".to_string())
}

fn run(level: Level, object: &[u8], mut store: Vec<i64>, mut state: State, allowance: u32, lent: &mut Lent) -> String {
    let ran = level.run(object, &mut store, &mut state, allowance, lent);
    ran.map_or_else(refused, |ran| show(level, &ran, &state, &store, lent))
}

fn bench(level: Level, object: &[u8], mut store: Vec<i64>, allowance: u32, lent: &mut Lent) -> String {
    let ran = level.bench(object, &mut store, allowance, lent);
    ran.map_or_else(refused, |(ran, state)| show(level, &ran, &state, &store, lent))
}

fn map(level: Level, object: &[u8]) -> String {
    let mut table = vec![0; level.edition().longest()];
    if let Err(refusal) = level.map(object, &mut table) {
        return refused(refusal);
    }
    let names = level.open(object).map_or(Vec::new(), |tables| tables.names);
    let shown = names
        .iter()
        .map(|n| format!("{} {} {} {}", n.text(), n.first, n.rows, n.columns));
    shown.collect::<Vec<String>>().join(" | ")
}

pub fn refused(refusal: Refusal) -> String {
    format!("REFUSED {} {} {}", refusal.number, refusal.place, refusal.kind)
}

fn show(level: Level, ran: &Ran, state: &State, store: &[i64], lent: &Lent) -> String {
    let mut halt = format!("HALT {} STEPS {} DROP {}", ran.halt, ran.steps, ran.sequence);
    if level >= Level::Cards {
        halt += &counts(lent);
    }
    let mut lines = vec![
        halt,
        format!("{} {} {}", state.index, state.height, state.mark),
        state.places.map(|number| number.to_string()).join(" "),
    ];
    lines.extend(store.iter().map(|cell| cell.to_string()));
    lines.extend(lent.shown().map(|line| format!("={line}")));
    lines.join(" | ")
}

/// Cards taken and lines written.
fn counts(lent: &Lent) -> String {
    format!(" CARDS {} LINES {}", lent.taken(), lent.lines().len())
}

/// "an empty hexadecimal field is `-`"
pub fn bytes(field: &str) -> Option<Vec<u8>> {
    if field == "-" {
        return Some(Vec::new());
    }
    let digits: Option<Vec<u8>> = field.chars().map(|c| c.to_digit(16).map(|d| d as u8)).collect();
    let digits = digits?;
    if digits.is_empty() || digits.len() % 2 != 0 {
        return None;
    }
    Some(digits.chunks_exact(2).map(|pair| pair[0] * 16 + pair[1]).collect())
}

pub fn hexadecimal(bytes: &[u8]) -> String {
    bytes.iter().map(|byte| format!("{byte:02x}")).collect()
}

/// "decimals joined by commas, `-` for an empty store"
pub fn numbers(field: &str) -> Option<Vec<i64>> {
    if field == "-" {
        return Some(Vec::new());
    }
    field.split(',').map(signed).collect()
}

/// "index,height,mark and forty stack numbers joined by commas"
pub fn read_state(field: &str) -> Option<State> {
    let parts: Vec<&str> = field.split(',').collect();
    let [index, height, mark, rest @ ..] = &parts[..] else {
        return None;
    };
    let stack: Option<Vec<i64>> = rest.iter().map(|part| signed(part)).collect();
    let places: [i64; STACK] = stack?.try_into().ok()?;
    Some(State {
        index: unsigned(index)?,
        height: unsigned(height)?,
        mark: unsigned(mark)?,
        places,
    })
}

pub fn unsigned(field: &str) -> Option<u32> {
    all_digits(field).then(|| field.parse().ok()).flatten()
}

fn signed(field: &str) -> Option<i64> {
    all_digits(field.strip_prefix('-').unwrap_or(field))
        .then(|| field.parse().ok())
        .flatten()
}

fn all_digits(field: &str) -> bool {
    !field.is_empty() && field.bytes().all(|c| c.is_ascii_digit())
}
