//! The fields of a row, by the reader that is in the crate `csv`. It is made once and lent row after row: making it takes
//! longer than many rows.

use csv_core::{ReadRecordResult, Reader, ReaderBuilder, Terminator};

use crate::hours::rows::Row;

/// It is not to be cloned: a clone of release 0.1.6's reader reads otherwise.
pub struct Fields {
    separator: u8,
    reader: Reader,
    /// The text of all fields, and where in it each ends.
    text: Vec<u8>,
    ends: Vec<usize>,
}

impl Fields {
    pub fn new(separator: u8) -> Fields {
        Fields {
            separator,
            reader: reader(separator),
            text: Vec::new(),
            ends: Vec::new(),
        }
    }

    /// Of a row with a flaw, the fields before it.
    pub fn of(&mut self, row: &Row) -> Vec<&[u8]> {
        let bytes = row.bytes();
        self.text.resize(bytes.len(), 0);
        self.ends.resize(bytes.len(), 0);
        let (result, _, _, fields) = self.reader.read_record(bytes, &mut self.text, &mut self.ends);
        if result != ReadRecordResult::Record {
            // A quote is not closed: what comes next is another row.
            self.reader = reader(self.separator);
        }
        let ends = &self.ends[..row.flaw.as_ref().map_or(fields, |flaw| flaw.field.min(fields))];
        let starts = std::iter::once(&0).chain(ends);
        starts.zip(ends).map(|(start, end)| &self.text[*start..*end]).collect()
    }
}

/// A line end that is in quotes does not end a row, any other does.
fn reader(separator: u8) -> Reader {
    let mut builder = ReaderBuilder::new();
    builder.delimiter(separator).terminator(Terminator::Any(b'\n')).build()
}
