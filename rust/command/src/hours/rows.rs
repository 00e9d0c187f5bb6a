//! The rows of a table, one after another from a stream. A row is no longer than the longest, and one whose quotes are not
//! as they should be is known by that: the `csv` crate would take it for another row.

use std::io::{BufRead, BufReader, Chain, Cursor, ErrorKind, Read};

const LONGEST: usize = 1_048_576;
const BYTE_ORDER_MARK: &[u8] = b"\xEF\xBB\xBF";

pub struct Row {
    /// Where it begins, counted from 1.
    pub line: usize,
    bytes: Vec<u8>,
    pub flaw: Option<Flaw>,
}

/// What is wrong with a row's quotes, and in which of its fields, counted from 0.
pub struct Flaw {
    pub field: usize,
    pub words: &'static str,
}

impl Row {
    /// With a line end last, whether it had one or not.
    pub fn bytes(&self) -> &[u8] {
        &self.bytes
    }

    fn new(line: usize, mut bytes: Vec<u8>, flaw: Option<Flaw>) -> Row {
        for end in [b'\n', b'\r'] {
            if bytes.last() == Some(&end) {
                bytes.pop();
            }
        }
        bytes.push(b'\n');
        Row { line, bytes, flaw }
    }

    fn is_blank(&self) -> bool {
        self.bytes == b"\n"
    }
}

pub struct Rows<R> {
    input: BufReader<Chain<Cursor<Vec<u8>>, R>>,
    separator: u8,
    next: usize,
    /// How many bytes were read.
    pub bytes: u64,
}

impl<R: Read> Rows<R> {
    /// A byte order mark at the beginning is left out.
    pub fn new(mut input: R, separator: u8) -> Result<Rows<R>, String> {
        let mut start = Vec::new();
        let read = input
            .by_ref()
            .take(BYTE_ORDER_MARK.len() as u64)
            .read_to_end(&mut start);
        read.map_err(|error| error.to_string())?;
        if start == BYTE_ORDER_MARK {
            start.clear();
        }
        Ok(Rows {
            input: BufReader::new(Cursor::new(start).chain(input)),
            separator,
            next: 1,
            bytes: 0,
        })
    }

    /// None at the end; an error if there is no going on.
    pub fn next(&mut self) -> Result<Option<Row>, String> {
        let (mut bytes, mut quotes) = (Vec::new(), Quotes::default());
        let line = self.next;
        loop {
            let part = match self.input.fill_buf() {
                Err(error) if error.kind() == ErrorKind::Interrupted => continue,
                part => part.map_err(|error| error.to_string())?,
            };
            if part.is_empty() {
                let flaw = quotes.flaw_at_end();
                return Ok((!bytes.is_empty()).then(|| Row::new(line, bytes, flaw)));
            }
            let end = part.iter().position(|byte| quotes.ends(*byte, self.separator));
            let length = end.map_or(part.len(), |end| end + 1);
            bytes.extend_from_slice(&part[..length]);
            self.next += part[..length].iter().filter(|byte| **byte == b'\n').count();
            self.bytes += length as u64;
            self.input.consume(length);
            if bytes.len() > LONGEST {
                let column = quotes.field + 1;
                return Err(format!(
                    "line {line}, column {column}: a row of over {LONGEST} bytes; it and what comes after it are not read"
                ));
            }
            if end.is_some() {
                return Ok(Some(Row::new(line, bytes, quotes.flaw)));
            }
        }
    }

    /// The next rows that are not blank: so many, or until there are no more or no going on, which is told.
    pub fn block(&mut self, most: usize) -> (Vec<Row>, Option<String>) {
        let mut block = Vec::new();
        let mut bytes = 0;
        while block.len() < most && bytes < LONGEST {
            match self.next() {
                Ok(Some(row)) if row.is_blank() => {}
                Ok(Some(row)) => {
                    bytes += row.bytes.len();
                    block.push(row);
                }
                Ok(None) => break,
                Err(words) => return (block, Some(words)),
            }
        }
        (block, None)
    }

    /// The first row.
    pub fn header(&mut self) -> Result<Row, String> {
        let none = Row::new(1, Vec::new(), None);
        Ok(self.next()?.unwrap_or(none))
    }
}

#[derive(Clone, Copy, Default)]
enum Place {
    #[default]
    Start,
    Plain,
    Quoted,
    /// After a quote that closes, or is the first of two.
    Closed,
    /// After blanks after it.
    After,
}

/// How far the quotes of a row are read.
#[derive(Default)]
struct Quotes {
    place: Place,
    field: usize,
    flaw: Option<Flaw>,
}

impl Quotes {
    /// Whether the row ends with this byte.
    fn ends(&mut self, byte: u8, separator: u8) -> bool {
        self.place = match (self.place, byte) {
            (Place::Quoted, b'"') => Place::Closed,
            (Place::Quoted, _) => Place::Quoted,
            (_, b'\n') => return true,
            (_, byte) if byte == separator => {
                self.field += 1;
                Place::Start
            }
            (Place::Start | Place::Closed, b'"') => Place::Quoted,
            (Place::Closed | Place::After, b' ' | b'\t' | b'\r') => Place::After,
            (Place::Plain, b'"') | (Place::Closed | Place::After, _) => {
                self.note("a quote stands amid a field");
                Place::Plain
            }
            (Place::Start | Place::Plain, _) => Place::Plain,
        };
        false
    }

    fn flaw_at_end(mut self) -> Option<Flaw> {
        if matches!(self.place, Place::Quoted) {
            self.note("a quote is not closed");
        }
        self.flaw
    }

    fn note(&mut self, words: &'static str) {
        let field = self.field;
        self.flaw.get_or_insert(Flaw { field, words });
    }
}

#[cfg(test)]
mod tests {
    use csv::{ByteRecord, ReaderBuilder};

    use super::*;
    use crate::hours::fields::Fields;

    /// Line, fields and flaw of each row.
    fn read(table: &str) -> Vec<String> {
        let mut rows = Rows::new(table.as_bytes(), b',').expect("bytes in memory");
        let (mut told, mut fields) = (Vec::new(), Fields::new(b','));
        while let Some(row) = rows.next().expect("short rows") {
            let text = |field: &[u8]| String::from_utf8_lossy(field).into_owned();
            let texts: Vec<String> = fields.of(&row).into_iter().map(text).collect();
            let flaw = row.flaw.map(|flaw| format!(" {}: {}", flaw.field, flaw.words));
            told.push(format!("{} {}{}", row.line, texts.join("|"), flaw.unwrap_or_default()));
        }
        told
    }

    #[test]
    fn rows_and_fields() {
        assert_eq!(read("I, J ,\"L(2,1)\" ,x\r\n\na"), ["1 I| J |L(2,1) |x", "2 ", "3 a"]);
        assert_eq!(read("\"a \"\"b\"\"\",\n"), ["1 a \"b\"|"]);
        assert_eq!(read("\"a\n\"\"\nb\",\"\n\"\nc\n"), ["1 a\n\"\nb|\n", "5 c"]);
    }

    #[test]
    fn quotes_that_are_not_as_they_should_be() {
        let amid = "a quote stands amid a field";
        for (row, field) in [
            ("\"I\"J", 0),
            ("I\"J", 0),
            ("I,\"J,\"K", 1),
            ("I, \"J\"", 1),
            ("\"I\" \"J\"", 0),
        ] {
            let told = read(&format!("{row}\nnext\n"));
            assert!(told[0].ends_with(&format!(" {field}: {amid}")), "{row}: {told:?}");
            assert_eq!(told[1], "2 next", "{row}");
        }
        let open = read("I\nJ,\"K\nL\n");
        assert_eq!(open[0], "1 I");
        assert!(
            open[1].ends_with(" 1: a quote is not closed") && open.len() == 2,
            "{open:?}"
        );
    }

    /// Every short table without a flaw is read as the `csv` crate reads all of it.
    #[test]
    fn tables_without_flaws_are_read_alike() {
        const LETTERS: &[u8] = b"\",a \n";
        const LENGTH: u32 = 7;
        let (mut sound, mut fields) = (0, Fields::new(b','));
        for number in 0..LETTERS.len().pow(LENGTH) {
            let letter = |place: u32| LETTERS[number / LETTERS.len().pow(place) % LETTERS.len()];
            let table: Vec<u8> = (0..LENGTH).map(letter).collect();
            let (rows, _) = Rows::new(&table[..], b',').expect("bytes in memory").block(usize::MAX);
            if rows.iter().any(|row| row.flaw.is_some()) {
                continue;
            }
            let mut whole = ReaderBuilder::new();
            let whole = whole.has_headers(false).flexible(true).from_reader(&table[..]);
            let expected: Vec<ByteRecord> = whole.into_byte_records().map(|row| row.expect("a row")).collect();
            let read: Vec<ByteRecord> = rows.iter().map(|row| fields.of(row).into()).collect();
            assert_eq!(read, expected, "{}", String::from_utf8_lossy(&table));
            sound += 1;
        }
        assert!(sound > 5_000, "{sound}");
    }

    #[test]
    fn an_endless_row_is_not_read_to_its_end() {
        let mut rows = Rows::new(std::io::repeat(b','), b',').expect("an endless stream");
        assert!(rows
            .next()
            .is_err_and(|words| words.contains(": a row of over 1048576 bytes;")));
        assert!(rows.bytes < 2 * LONGEST as u64);
    }
}
