//! The program (01 "Worked examples"): a control card and a deck in, printed lines out.

use crate::lent::Lent;
use crate::level::Level;
use crate::limits::CARD_BYTES;
use crate::machine::State;
use crate::object::NameEntry;
use crate::refusal::Refusal;

/// "runs with a zero store and 1,000,000 steps"
const ALLOWANCE: u32 = 1_000_000;
/// "blank for 5"
const USUAL_DIGITS: u32 = 5;
/// "The program lends no cards and 1,000 lines".
const ROOM: usize = 1_000;

/// The text that the base's program prints for its standard input, a line end after each line.
pub fn program(input: &[u8]) -> String {
    let lines = Level::Base.program(input);
    lines.iter().map(|line| format!("{line}\n")).collect()
}

impl Level {
    /// What the program prints, line by line.
    pub fn program(self, input: &[u8]) -> Vec<String> {
        match answer(self, input) {
            Ok(lines) => lines,
            // "A refusal prints REFUSED, number, place."
            Err(refusal) => vec![format!("REFUSED {} {}", refusal.number, refusal.place)],
        }
    }
}

fn answer(level: Level, input: &[u8]) -> Result<Vec<String>, Refusal> {
    let k = digits(input).ok_or(Refusal::whole(1))?;
    let (_, tables) = level.accept(k, &input[CARD_BYTES..])?;
    let mut store = vec![0; tables.cells as usize];
    let mut lent = Lent::new(&[], ROOM);
    let ran = level.run(
        &tables.to_bytes(),
        &mut store,
        &mut State::fresh(),
        ALLOWANCE,
        &mut lent,
    )?;
    // "prints the lines (blanks at the end cut) before the halt line"
    let mut lines: Vec<String> = lent.shown().collect();
    lines.push(format!("HALT {} STEPS {} DROP {}", ran.halt, ran.steps, ran.sequence));
    lines.extend(values(&tables.names, &store));
    Ok(lines)
}

/// "a control card (80 bytes: k in column 1, blank for 5, then blanks; else refused 1)"
fn digits(input: &[u8]) -> Option<u32> {
    let (first, rest) = input.get(..CARD_BYTES)?.split_first()?;
    if rest.iter().any(|c| *c != b' ') {
        return None;
    }
    match first {
        b' ' => Some(USUAL_DIGITS),
        b'1'..=b'9' => Some(u32::from(first - b'0')),
        _ => None,
    }
}

/// "names with values, elements as `L(2,1) 5` in storage order"
pub fn values(names: &[NameEntry], store: &[i64]) -> Vec<String> {
    let mut lines = Vec::new();
    for name in names {
        let (first, text) = (name.first as usize, name.text());
        for (index, value) in store[first..first + name.size() as usize].iter().enumerate() {
            lines.push(match (name.rows as usize, name.columns) {
                (0, _) => format!("{text} {value}"),
                (_, 0) => format!("{text}({}) {value}", index + 1),
                (rows, _) => format!("{text}({},{}) {value}", index % rows + 1, index / rows + 1),
            });
        }
    }
    lines
}
