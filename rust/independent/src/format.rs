//! FORMAT (02, 2026-01): a punched text read as its list of fields, and what is known of the list.

use crate::limits::LARGEST_NUMBER;

/// One of a list's fields, or a slash between, before or after them.
#[derive(Clone, Debug, PartialEq, Eq)]
pub enum Field {
    /// `Iw`, `rIw`
    Number {
        repeat: u32,
        width: u32,
    },
    /// `nX`
    Blanks(u32),
    /// `nH` and n columns
    Text(Vec<u8>),
    Slash,
    /// `(list)`, `r(list)`
    Group {
        repeat: u32,
        list: Vec<Field>,
    },
}

/// The list of a FORMAT statement whose columns 7-72 these are, card after card; None: not of the forms.
pub fn read(columns: &[u8]) -> Option<Vec<Field>> {
    let mut reader = Reader { rest: columns };
    for letter in b"FORMAT(" {
        reader.mark(*letter)?;
    }
    let list = reader.list()?;
    reader.next().is_none().then_some(list)
}

/// Whether a list's FORMAT has an I, as one with items must.
pub fn has_number(list: &[Field]) -> bool {
    list.iter().any(|field| match field {
        Field::Number { .. } => true,
        Field::Group { list, .. } => has_number(list),
        Field::Blanks(_) | Field::Text(_) | Field::Slash => false,
    })
}

/// Where the scan begins again: "the last group among the outermost fields", else the beginning.
pub fn again(list: &[Field]) -> usize {
    let group = |field: &Field| matches!(field, Field::Group { .. });
    list.iter().rposition(group).unwrap_or(0)
}

struct Reader<'c> {
    rest: &'c [u8],
}

impl<'c> Reader<'c> {
    /// "fields, any two with one comma or one or more slashes between; slashes also first and last; at least one field
    /// or slash", and the parenthesis that closes them.
    fn list(&mut self) -> Option<Vec<Field>> {
        let mut list = Vec::new();
        let mut parted = true;
        while self.mark(b')').is_none() {
            if self.mark(b'/').is_some() {
                list.push(Field::Slash);
                parted = true;
                continue;
            }
            if !parted {
                self.mark(b',')?;
            }
            list.push(self.field()?);
            parted = false;
        }
        (!list.is_empty()).then_some(list)
    }

    /// "X and H need their number and take no repeat count".
    fn field(&mut self) -> Option<Field> {
        let count = match self.digit_next() {
            true => Some(self.number()?),
            false => None,
        };
        let repeat = count.unwrap_or(1);
        match (self.take()?, count) {
            (b'I', _) => {
                let width = self.number()?;
                Some(Field::Number { repeat, width })
            }
            (b'(', _) => {
                let list = self.list()?;
                Some(Field::Group { repeat, list })
            }
            (b'X', Some(columns)) => Some(Field::Blanks(columns)),
            (b'H', Some(columns)) => self.text(columns as usize),
            _ => None,
        }
    }

    /// "the n columns of 7-72 after the H, blanks and `$` as they are".
    fn text(&mut self, columns: usize) -> Option<Field> {
        let (text, rest) = self.rest.split_at_checked(columns)?;
        self.rest = rest;
        Some(Field::Text(text.to_vec()))
    }

    /// "a run of digits with value 1 to 99999, leading zeros free".
    fn number(&mut self) -> Option<u32> {
        let mut value = 0u32;
        while self.digit_next() {
            let digit = self.take()? - b'0';
            value = value.saturating_mul(10).saturating_add(u32::from(digit));
        }
        (1..=LARGEST_NUMBER).contains(&value).then_some(value)
    }

    fn digit_next(&mut self) -> bool {
        self.next().is_some_and(|c| c.is_ascii_digit())
    }

    fn mark(&mut self, mark: u8) -> Option<()> {
        (self.next()? == mark).then(|| self.rest = &self.rest[1..])
    }

    fn take(&mut self) -> Option<u8> {
        let next = self.next()?;
        self.rest = &self.rest[1..];
        Some(next)
    }

    /// The next character: outside an H field "blanks vanish".
    fn next(&mut self) -> Option<u8> {
        self.rest = self.rest.trim_ascii_start();
        self.rest.first().copied()
    }
}
