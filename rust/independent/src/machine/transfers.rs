//! READ and PRINT (02, 2026-01): a FORMAT's words beside the items of a list.

use super::{element, After};
use crate::lent::{Lent, Printing, Reading, Trouble};
use crate::object::{unpack, word, ItemEntry, Tables};

/// What is left of a list: items, and the cells of the first of them that are done.
struct List<'t> {
    items: &'t [ItemEntry],
    done: u32,
}

/// Where an item's next number is.
enum Place {
    Cell(usize),
    /// An entry of body 2.
    Element(usize),
}

impl<'t> List<'t> {
    fn of(tables: &'t Tables, entry: usize) -> List<'t> {
        let transfer = &tables.transfers[entry];
        let first = transfer.first as usize;
        let items = &tables.items[first..first + transfer.count as usize];
        List { items, done: 0 }
    }

    fn next(&mut self) -> Option<Place> {
        let (item, rest) = self.items.split_first()?;
        if item.count == 0 {
            self.items = rest;
            return Some(Place::Element(item.first as usize));
        }
        let cell = item.first + self.done;
        self.done += 1;
        if self.done == item.count {
            (self.items, self.done) = (rest, 0);
        }
        Some(Place::Cell(cell as usize))
    }
}

/// A READ or PRINT: "Both .. leave state, store, cards and lines as before that instruction" where they halt. The loop
/// is quicker for decks without them if this stays out of it.
#[cold]
#[inline(never)]
pub fn transfer(tables: &Tables, store: &mut [i64], lent: &mut Lent, entry: u32, reads: bool) -> After {
    let transferred = match reads {
        true => read(tables, store, lent, entry as usize),
        false => print(tables, store, lent, entry as usize),
    };
    match transferred {
        Ok(()) => After::Next,
        Err(trouble) => After::Halt(trouble.halt()),
    }
}

fn read(tables: &Tables, store: &mut [i64], lent: &mut Lent, entry: usize) -> Result<(), Trouble> {
    let mut before = Vec::new();
    let read = take_cards(tables, store, lent, entry, &mut before);
    if read.is_err() {
        for (cell, value) in before.into_iter().rev() {
            store[cell] = value;
        }
    }
    read
}

/// Sets the cells of the list, and notes what they were.
fn take_cards(
    tables: &Tables,
    store: &mut [i64],
    lent: &mut Lent,
    entry: usize,
    before: &mut Vec<(usize, i64)>,
) -> Result<(), Trouble> {
    let mut list = List::of(tables, entry);
    let mut at = tables.transfers[entry].format as usize;
    let mut reading = Reading::begin(lent)?;
    loop {
        let (kind, operand) = unpack(tables.words[at]);
        at += 1;
        match kind {
            word::NUMBER => {
                let Some(place) = list.next() else { break };
                let cell = cell(tables, store, place)?;
                let value = reading.number(tables.k, operand as usize)?;
                before.push((cell, store[cell]));
                store[cell] = value;
            }
            word::BLANKS => reading.skip(operand as usize)?,
            word::TEXT => reading.skip(1)?,
            word::SLASH => reading.next_card()?,
            _ if list.items.is_empty() => break,
            _ => {
                reading.next_card()?;
                at = operand as usize;
            }
        }
    }
    reading.done(lent);
    Ok(())
}

/// "PRINT writes a line at each slash, at each new scan and when it ends."
fn print(tables: &Tables, store: &[i64], lent: &mut Lent, entry: usize) -> Result<(), Trouble> {
    let mut list = List::of(tables, entry);
    let mut at = tables.transfers[entry].format as usize;
    let mut printing = Printing::begin(lent);
    loop {
        let (kind, operand) = unpack(tables.words[at]);
        at += 1;
        match kind {
            word::NUMBER => {
                let Some(place) = list.next() else { break };
                let cell = cell(tables, store, place)?;
                printing.number(store[cell], operand as usize)?;
            }
            word::BLANKS => printing.skip(operand as usize)?,
            word::TEXT => printing.character(operand as u8)?,
            word::SLASH => printing.next_line()?,
            _ if list.items.is_empty() => break,
            _ => {
                printing.next_line()?;
                at = operand as usize;
            }
        }
    }
    printing.next_line()?;
    printing.done(lent);
    Ok(())
}

fn cell(tables: &Tables, store: &[i64], place: Place) -> Result<usize, Trouble> {
    match place {
        Place::Cell(cell) => Ok(cell),
        Place::Element(entry) => element(tables, store, entry).ok_or(Trouble::Subscript),
    }
}
