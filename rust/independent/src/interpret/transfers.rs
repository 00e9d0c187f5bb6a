//! READ and PRINT as the statements mean them (02, 2026-01): a FORMAT's fields as they are written, beside a list.

use std::collections::VecDeque;

use super::{Meaning, Worked};
use crate::cards::StatementNumber;
use crate::format::{again, Field};
use crate::lent::{Printing, Reading, Trouble};
use crate::reader::{Form, Reference, Transfer};

/// A named value that a list asks for: an array's by its index, an element by its subscripts when it is come to.
enum Item<'d> {
    Value(&'d str, usize),
    Element(&'d Reference),
}

/// A field that is done once.
enum Single<'d> {
    Number(usize),
    Blanks(usize),
    Text(&'d [u8]),
    Slash,
}

/// Why a scan of a FORMAT stops before its end.
enum Stop {
    /// "an I with no item left"
    ListDone,
    Trouble(Trouble),
}

impl From<Trouble> for Stop {
    fn from(trouble: Trouble) -> Stop {
        Stop::Trouble(trouble)
    }
}

impl<'d> Meaning<'d, '_, '_> {
    /// A READ; one that halts leaves the values as they were.
    pub(super) fn read(&mut self, transfer: &'d Transfer) -> Worked<()> {
        let before = self.values.clone();
        let read = self.take_cards(transfer);
        if read.is_err() {
            self.values = before;
        }
        self.judged(read)
    }

    pub(super) fn print(&mut self, transfer: &'d Transfer) -> Worked<()> {
        let printed = self.write_lines(transfer);
        self.judged(printed)
    }

    fn judged(&mut self, done: Result<(), Trouble>) -> Worked<()> {
        self.trouble = done.err();
        done.map_err(Trouble::halt)
    }

    fn take_cards(&mut self, transfer: &'d Transfer) -> Result<(), Trouble> {
        let mut items = self.items(transfer);
        let mut reading = Reading::begin(self.lent)?;
        let k = self.deck.k();
        let mut fields = self.fields(transfer.format);
        loop {
            let mut one = |single: Single| {
                match single {
                    Single::Number(width) => {
                        let (name, index) = self.named(items.pop_front().ok_or(Stop::ListDone)?)?;
                        *self.place(name, index) = reading.number(k, width)?;
                    }
                    Single::Blanks(columns) => reading.skip(columns)?,
                    Single::Text(text) => reading.skip(text.len())?,
                    Single::Slash => reading.next_card()?,
                }
                Ok(())
            };
            if ended(scan(fields, &mut one))? || items.is_empty() {
                break;
            }
            reading.next_card()?;
            fields = &fields[again(fields)..];
        }
        reading.done(self.lent);
        Ok(())
    }

    fn write_lines(&mut self, transfer: &'d Transfer) -> Result<(), Trouble> {
        let mut items = self.items(transfer);
        let mut printing = Printing::begin(self.lent);
        let mut fields = self.fields(transfer.format);
        loop {
            let mut one = |single: Single| {
                match single {
                    Single::Number(width) => {
                        let (name, index) = self.named(items.pop_front().ok_or(Stop::ListDone)?)?;
                        printing.number(*self.place(name, index), width)?;
                    }
                    Single::Blanks(columns) => printing.skip(columns)?,
                    Single::Text(text) => text.iter().try_for_each(|c| printing.character(*c))?,
                    Single::Slash => printing.next_line()?,
                }
                Ok(())
            };
            let ended = ended(scan(fields, &mut one))?;
            printing.next_line()?;
            if ended || items.is_empty() {
                break;
            }
            fields = &fields[again(fields)..];
        }
        printing.done(self.lent);
        Ok(())
    }

    /// "Lists hold names, elements and whole arrays in storage order, taken left to right."
    fn items(&self, transfer: &'d Transfer) -> VecDeque<Item<'d>> {
        let mut items = VecDeque::new();
        for reference in &transfer.list {
            if !reference.subscripts.is_empty() {
                items.push_back(Item::Element(reference));
                continue;
            }
            let (rows, columns) = self.shapes.get(&reference.name).copied().unwrap_or((1, 1));
            let size = (rows * columns) as usize;
            items.extend((0..size).map(|index| Item::Value(&reference.name, index)));
        }
        items
    }

    fn named(&mut self, item: Item<'d>) -> Result<(&'d str, usize), Trouble> {
        match item {
            Item::Value(name, index) => Ok((name, index)),
            Item::Element(reference) => match self.index(reference) {
                Ok(index) => Ok((&reference.name, index)),
                Err(_) => Err(Trouble::Subscript),
            },
        }
    }

    fn fields(&self, number: StatementNumber) -> &'d [Field] {
        let named = self.deck.statements().iter().find(|s| s.number == Some(number));
        match named.map(|s| &s.form) {
            Some(Form::Format(fields)) => fields,
            _ => &[],
        }
    }
}

/// Whether the list was done before the FORMAT's end.
fn ended(scan: Result<(), Stop>) -> Result<bool, Trouble> {
    match scan {
        Ok(()) => Ok(false),
        Err(Stop::ListDone) => Ok(true),
        Err(Stop::Trouble(trouble)) => Err(trouble),
    }
}

/// Does the fields from left to right, each as often as it is repeated.
fn scan<'d>(fields: &'d [Field], one: &mut impl FnMut(Single<'d>) -> Result<(), Stop>) -> Result<(), Stop> {
    for field in fields {
        match field {
            Field::Number { repeat, width } => (0..*repeat).try_for_each(|_| one(Single::Number(*width as usize)))?,
            Field::Blanks(columns) => one(Single::Blanks(*columns as usize))?,
            Field::Text(text) => one(Single::Text(text))?,
            Field::Slash => one(Single::Slash)?,
            Field::Group { repeat, list } => (0..*repeat).try_for_each(|_| scan(list, one))?,
        }
    }
    Ok(())
}
