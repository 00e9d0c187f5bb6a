//! One hour: a row read, and the deck run from its values.

use luvinqata::{Halt, Program, State, Store};

use crate::hours::columns::Columns;
use crate::hours::fields::Fields;
use crate::hours::rows::Row;
use crate::hours::table::Table;
use crate::told::sequence_at;

pub struct Hour {
    pub line: usize,
    /// The row's fields by column, as far as they can be read.
    pub fields: Vec<Option<String>>,
    /// How the run ended, or why the row cannot be run.
    pub end: Result<End, String>,
    /// Its row in the table that is written.
    pub written: Vec<u8>,
}

pub struct End {
    /// All values of the deck, in the order of their names.
    pub values: Vec<i64>,
    pub halt: Halt,
    /// The sequence number of the statement where the run stands.
    pub at: u32,
    /// The sequence number of the first statement that lost digits, or 0.
    pub loss: u32,
    /// What is otherwise with other digits, in words.
    pub differs: Option<String>,
}

/// A program with the store of its runs.
pub struct Machine<'p> {
    program: &'p Program,
    store: Store,
    /// What `--set` gives.
    set: &'p [(usize, i64)],
    steps: u32,
}

impl<'p> Machine<'p> {
    pub fn new(program: &'p Program, set: &'p [(usize, i64)], steps: u32) -> Machine<'p> {
        let store = Store::new(program.object()).expect("a compiled object passes the check");
        Machine {
            program,
            store,
            set,
            steps,
        }
    }

    fn run(&mut self, values: &[(usize, i64)]) -> Result<End, String> {
        let cells = self.store.cells_mut();
        cells.fill(0);
        for (cell, value) in values.iter().chain(self.set) {
            cells[*cell] = *value;
        }
        let mut state = State::fresh();
        let ran = luvinqata::run(self.program.object(), cells, &mut state, self.steps);
        let ran = ran.map_err(|refusal| refusal.to_string())?;
        let names = self.program.names();
        Ok(End {
            values: names
                .iter()
                .flat_map(|name| &cells[name.first..][..name.size()])
                .copied()
                .collect(),
            halt: ran.halt,
            at: sequence_at(self.program, &state),
            loss: ran.sequence,
            differs: None,
        })
    }
}

/// Runs hours; a thread has one of its own.
pub struct Worker<'p> {
    pub fields: Fields,
    pub columns: &'p Columns,
    pub table: &'p Table,
    pub machine: Machine<'p>,
    /// The same deck with other digits.
    pub other: Option<Machine<'p>>,
}

impl Worker<'_> {
    pub fn hour(&mut self, row: &Row) -> Hour {
        let digits = self.machine.program.digits();
        let reading = self.columns.read(row, &mut self.fields, digits);
        let mut hour = Hour {
            line: row.line,
            fields: reading.fields,
            end: reading.values.and_then(|values| self.run(&values)),
            written: Vec::new(),
        };
        hour.written = self.table.row(&hour);
        hour
    }

    fn run(&mut self, values: &[(usize, i64)]) -> Result<End, String> {
        let mut end = self.machine.run(values)?;
        if let Some(other) = &mut self.other {
            let digits = other.program.digits();
            end.differs = match other.run(values) {
                Ok(with) => differences(&end, &with, &self.machine.store, digits),
                Err(words) => Some(format!("with {digits} digits: {words}")),
            };
        }
        Ok(end)
    }
}

fn differences(end: &End, with: &End, store: &Store, digits: u32) -> Option<String> {
    let mut words = Vec::new();
    for (((name, _), value), other) in store.iter().zip(&end.values).zip(&with.values) {
        if value != other {
            words.push(format!("{name} is {other}, not {value}"));
        }
    }
    if end.halt != with.halt {
        words.push(format!("the halt is {}, not {}", with.halt, end.halt));
    }
    (!words.is_empty()).then(|| format!("with {digits} digits {}", words.join("; ")))
}
