//! The request `meaning`: what the statements of a deck come to, with no object run.

use super::counts;
use crate::interpret::{interpret_lent, Values};
use crate::lent::Lent;
use crate::level::Level;
use crate::object::{NameEntry, Tables};
use crate::program::values;

/// "Start values are taken from STORE by the compiled map, 0 where it does not reach."
pub fn answer(level: Level, k: u32, deck: &[u8], most: u32, store: &[i64], lent: &mut Lent) -> String {
    let (deck, tables) = match level.accept(k, deck) {
        Ok(accepted) => accepted,
        Err(refusal) => return format!("REFUSED {} {}", refusal.number, refusal.place),
    };
    let mut cells = store.to_vec();
    cells.resize(tables.cells as usize, 0);
    let outcome = interpret_lent(&deck, &named(&tables, &cells), most.into(), lent);
    for name in &tables.names {
        cells[span(name)].copy_from_slice(&outcome.values[&name.text()]);
    }
    let mut parts = vec![match outcome.halt {
        2 => format!("RUNNING{}", counts(lent)),
        halt => format!("HALT {halt} DROP {}{}", outcome.first_loss, counts(lent)),
    }];
    parts.extend(values(&tables.names, &cells));
    parts.extend(lent.shown().map(|line| format!("={line}")));
    parts.join(" | ")
}

fn named(tables: &Tables, cells: &[i64]) -> Values {
    let value = |name: &NameEntry| (name.text(), cells[span(name)].to_vec());
    tables.names.iter().map(value).collect()
}

fn span(name: &NameEntry) -> std::ops::Range<usize> {
    let first = name.first as usize;
    first..first + name.size() as usize
}
