//! The table that is written: its columns, and its rows as CSV or as JSON.

use std::collections::HashSet;

use luvinqata::Store;

use crate::hours::columns::{Columns, LISTED, OWN};
use crate::hours::hour::Hour;
use crate::told::{list, shown};

/// Where what stands in a column comes from.
#[derive(Clone, Copy)]
pub enum Source {
    Line,
    /// A column of the table that is read.
    Field(usize),
    /// A value of the deck.
    Value(usize),
    Halt,
    Loss,
}

/// What stands in a field.
pub enum Entry<'h> {
    None,
    Number(i64),
    Text(&'h str),
}

pub struct Table {
    columns: Vec<(String, Source)>,
    separator: u8,
    json: bool,
}

impl Table {
    /// Every column that there can be.
    pub fn whole(columns: &Columns, store: &Store, separator: u8, json: bool) -> Table {
        let [line, halt, loss] = OWN.map(str::to_string);
        let mut all = vec![(line, Source::Line)];
        for (index, (name, cell)) in columns.names.iter().zip(&columns.cells).enumerate() {
            let name = cell.map_or(name.clone(), |_| format!("{name}.given"));
            all.push((name, Source::Field(index)));
        }
        let values = store.iter().enumerate();
        all.extend(values.map(|(index, (name, _))| (name, Source::Value(index))));
        all.extend([(halt, Source::Halt), (loss, Source::Loss)]);
        Table {
            columns: all,
            separator,
            json,
        }
    }

    /// Leaves out what is not asked for: columns that gave values, and values that are not among some.
    pub fn choose(&mut self, columns: &Columns, keep_inputs: bool, only: Option<&[usize]>) -> Result<(), String> {
        self.columns.retain(|(_, source)| match source {
            Source::Field(index) => keep_inputs || columns.cells[*index].is_none(),
            Source::Value(index) => only.is_none_or(|only| only.contains(index)),
            _ => true,
        });
        let mut seen = HashSet::new();
        match self.columns.iter().find(|(name, _)| self.json && !seen.insert(name)) {
            Some((name, _)) => Err(format!(
                "two columns are named '{}', which cannot be in a JSON object",
                shown(name)
            )),
            None => Ok(()),
        }
    }

    pub fn source(&self, name: &str) -> Result<Source, String> {
        let found = self.columns.iter().find(|(known, _)| known == name);
        found.map(|(_, source)| *source).ok_or_else(|| {
            let names: Vec<String> = self.columns.iter().map(|(name, _)| shown(name)).collect();
            format!("'{}' is none of {}", shown(name), list(&names, LISTED))
        })
    }

    /// The line of names, which JSON has none of.
    pub fn header(&self) -> Vec<u8> {
        match self.json {
            true => Vec::new(),
            false => self.line(self.columns.iter().map(|(name, _)| name.clone())),
        }
    }

    pub fn row(&self, hour: &Hour) -> Vec<u8> {
        if self.json {
            let pair = |(name, source): &(String, Source)| format!("{}:{}", string(name), hour.entry(*source).json());
            let pairs: Vec<String> = self.columns.iter().map(pair).collect();
            return format!("{{{}}}\n", pairs.join(",")).into_bytes();
        }
        self.line(self.columns.iter().map(|(_, source)| match hour.entry(*source) {
            Entry::None => String::new(),
            Entry::Number(number) => number.to_string(),
            Entry::Text(text) => text.to_string(),
        }))
    }

    fn line(&self, fields: impl Iterator<Item = String>) -> Vec<u8> {
        let mut writer = csv::WriterBuilder::new()
            .delimiter(self.separator)
            .from_writer(Vec::new());
        writer.write_record(fields).expect("a row in memory");
        writer.into_inner().expect("a row in memory")
    }
}

impl Hour {
    /// An hour that could not be run has only what was read.
    pub fn entry(&self, source: Source) -> Entry<'_> {
        let end = self.end.as_ref().ok();
        let number = |number: Option<i64>| number.map_or(Entry::None, Entry::Number);
        match source {
            Source::Line => Entry::Number(self.line as i64),
            Source::Field(index) => self.fields[index].as_deref().map_or(Entry::None, Entry::Text),
            Source::Value(index) => number(end.map(|end| end.values[index])),
            Source::Halt => number(end.map(|end| end.halt.number().into())),
            Source::Loss => number(end.map(|end| end.loss.into())),
        }
    }
}

impl Entry<'_> {
    fn json(&self) -> String {
        match self {
            Entry::None => "null".to_string(),
            Entry::Number(number) => number.to_string(),
            Entry::Text(text) => string(text),
        }
    }

    /// Where a dot stands, if the field is a number.
    pub fn number(&self) -> Option<f64> {
        match self {
            Entry::None => None,
            Entry::Number(number) => Some(*number as f64),
            Entry::Text(text) => text.trim().parse().ok().filter(|number: &f64| number.is_finite()),
        }
    }
}

/// A string as JSON has it.
fn string(text: &str) -> String {
    let told = |c: char| match c {
        '"' | '\\' => format!("\\{c}"),
        c if c.is_control() => format!("\\u{:04x}", c as u32),
        c => c.to_string(),
    };
    format!("\"{}\"", text.chars().map(told).collect::<String>())
}
