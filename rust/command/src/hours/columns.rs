//! The columns of a table that is read: the values that they give, and what a row's fields are.

use luvinqata::{Program, Store};

use crate::given::{has, is_over, like, whole};
use crate::hours::fields::Fields;
use crate::hours::rows::Row;
use crate::output::Output;
use crate::told::{list, shown};
use crate::uses::Uses;

/// The columns that are written besides values and copies.
pub const OWN: [&str; 3] = ["line", "halt", "loss"];
/// The most columns that are told in a line.
pub const LISTED: usize = 12;

pub struct Columns {
    pub names: Vec<String>,
    /// The cell that each gives a value; None: it is copied.
    pub cells: Vec<Option<usize>>,
}

/// A row's fields by column, as far as they can be read, and the values of its cells or why it gives none.
pub struct Reading {
    pub fields: Vec<Option<String>>,
    pub values: Result<Vec<(usize, i64)>, String>,
}

impl Columns {
    pub fn of(header: &Row, fields: &mut Fields, store: &Store) -> Result<Columns, String> {
        if let Some(flaw) = &header.flaw {
            return Err(format!("line 1: column {}: {}", flaw.field + 1, flaw.words));
        }
        let mut names = Vec::new();
        for (index, field) in fields.of(header).iter().enumerate() {
            let name =
                std::str::from_utf8(field).map_err(|_| format!("line 1: column {}: no UTF-8 text", index + 1))?;
            names.push(name.trim().to_string());
        }
        let cells: Vec<Option<usize>> = names.iter().map(|name| store.cell(name)).collect();
        for (index, (name, cell)) in names.iter().zip(&cells).enumerate() {
            if cell.is_some() && cells[..index].contains(cell) {
                return Err(format!("two columns are named '{name}'"));
            }
            if OWN.contains(&&name[..]) {
                return Err(format!(
                    "a column is named '{name}', as one that is written: give it another name"
                ));
            }
        }
        Ok(Columns { names, cells })
    }

    /// Tells which columns give no value.
    pub fn tell_copied(&self, store: &Store, out: &mut Output) {
        let copied = self.names.iter().zip(&self.cells).filter(|(_, cell)| cell.is_none());
        let mut unlike = Vec::new();
        for (name, _) in copied {
            let column = format!("'{}'", shown(name));
            match like(name, store) {
                Some(value) => out.say(format_args!(
                    "column {column} differs from the deck's {value} only in case or blanks: it gives no value and is copied"
                )),
                None => unlike.push(column),
            }
        }
        match &unlike[..] {
            [] => {}
            [one] => out.say(format_args!(
                "column {one} is no value of the deck: it is copied as it is"
            )),
            all => out.say(format_args!(
                "columns {} are no values of the deck: they are copied as they are",
                list(all, LISTED)
            )),
        }
    }

    /// Every value that the deck reads and never sets is to be given, and at least one by a column.
    pub fn judge(&self, program: &Program, store: &Store, set: &[(usize, i64)]) -> Result<(), String> {
        if let Some(name) = self.names.iter().zip(&self.cells).find_map(|(name, cell)| {
            let both = cell.is_some_and(|cell| set.iter().any(|(given, _)| *given == cell));
            both.then_some(name)
        }) {
            return Err(format!("{name} is given by a column and by --set"));
        }
        if self.cells.iter().all(Option::is_none) {
            let hint = if self.names.len() == 1 {
                "; --separator tells what parts them"
            } else {
                ""
            };
            return Err(format!(
                "line 1 names no value of the deck, which has {}{hint}",
                has(store)
            ));
        }
        let given = |cell| self.cells.contains(&Some(cell)) || set.iter().any(|(given, _)| *given == cell);
        match Uses::of(program).unset(store, given) {
            unset if unset.is_empty() => Ok(()),
            unset => Err(format!(
                "no column gives {}, which the deck reads and never sets: '--set {}=VALUE' gives it for all rows",
                list(&unset, 2),
                unset[0]
            )),
        }
    }

    pub fn read(&self, row: &Row, fields: &mut Fields, digits: u32) -> Reading {
        let fields = fields.of(row);
        let texts: Vec<Option<&str>> = fields
            .into_iter()
            .map(|field| std::str::from_utf8(field).ok())
            .collect();
        let field = |index: usize| texts.get(index).copied().flatten().map(str::to_string);
        let fields = (0..self.names.len()).map(field).collect();
        let values = match &row.flaw {
            Some(flaw) => Err(format!("{}: {}", self.name(flaw.field), flaw.words)),
            None => self.values(&texts, digits),
        };
        Reading { fields, values }
    }

    fn values(&self, texts: &[Option<&str>], digits: u32) -> Result<Vec<(usize, i64)>, String> {
        let (fields, columns) = (texts.len(), self.names.len());
        if fields < columns {
            return Err(format!(
                "{}: no field, the row has {fields} of {columns}",
                self.name(fields)
            ));
        }
        if fields > columns {
            return Err(format!(
                "{fields} fields, and {} is the last of {columns} columns",
                self.name(columns - 1)
            ));
        }
        let mut values = Vec::new();
        for (index, (text, cell)) in texts.iter().zip(&self.cells).enumerate() {
            let text = text.ok_or_else(|| format!("{}: no UTF-8 text", self.name(index)))?;
            let Some(cell) = cell else { continue };
            let value = whole(text.trim()).map_err(|words| format!("{}: {words}", self.name(index)))?;
            if is_over(value, digits) {
                return Err(format!("{}: {value} is over {digits} digits", self.name(index)));
            }
            values.push((*cell, value));
        }
        Ok(values)
    }

    /// A column for words about a row.
    fn name(&self, index: usize) -> String {
        match self.names.get(index).map(|name| shown(name)) {
            Some(name) if !name.is_empty() => name,
            _ => format!("column {}", index + 1),
        }
    }
}
