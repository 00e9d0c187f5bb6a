//! The names of an object and the cells that hold their values.

/// The bytes of one name in an object's map.
const ENTRY: usize = 20;

/// A name of the deck and the cells that hold its values.
#[derive(Clone, Debug, PartialEq, Eq)]
#[non_exhaustive]
pub struct Name {
    /// The name as it is punched.
    pub text: String,
    /// Its first cell.
    pub first: usize,
    /// An array's rows; 0 for a plain name.
    pub rows: usize,
    /// An array's columns; 0 for a plain name and for one dimension.
    pub columns: usize,
}

impl Name {
    fn read(entry: &[u8]) -> Name {
        Name {
            text: String::from_utf8_lossy(&entry[..8]).trim_end().to_string(),
            first: word(entry, 8) as usize,
            rows: word(entry, 12) as usize,
            columns: word(entry, 16) as usize,
        }
    }

    /// How many values it has.
    ///
    /// ```
    /// # let deck = luvinqata::punch(b"      DIMENSION L(2,3)\n      I=1\n      END").unwrap();
    /// # let object = luvinqata::compile_to_vec(5, &deck).unwrap();
    /// let store = luvinqata::Store::new(&object).unwrap();
    /// assert_eq!((store.names()[0].size(), store.names()[1].size()), (6, 1));
    /// ```
    pub fn size(&self) -> usize {
        self.rows.max(1) * self.columns.max(1)
    }

    /// What its value is called that is so many cells after the first: `I`, `L(2)`, `L(2,1)`. Elements lie by columns.
    fn called(&self, index: usize) -> String {
        match (self.rows, self.columns) {
            (0, _) => self.text.clone(),
            (_, 0) => format!("{}({})", self.text, index + 1),
            (rows, _) => format!("{}({},{})", self.text, index % rows + 1, index / rows + 1),
        }
    }
}

/// All names of an object, in the order of their cells.
#[derive(Clone, Debug, PartialEq, Eq)]
pub(crate) struct Names(pub Vec<Name>);

impl Names {
    /// The names of a map's bytes.
    pub fn read(map: &[u8]) -> Names {
        Names(map.chunks_exact(ENTRY).map(Name::read).collect())
    }

    /// The cell of a value: of a name, `I`, or of an element, `L(2)` or `L(2,1)`, with no blank in it.
    pub fn cell(&self, name: &str) -> Option<usize> {
        let (text, subscripts) = match name.split_once('(') {
            None => (name, Vec::new()),
            Some((text, rest)) => (text, numbers(rest.strip_suffix(')')?)?),
        };
        let name = self.0.iter().find(|name| name.text == text)?;
        let index = match (name.rows, name.columns, &subscripts[..]) {
            (0, _, []) => 0,
            (rows, 0, [row]) if *row <= rows => row - 1,
            (rows, columns, [row, column]) if *row <= rows && *column <= columns => row - 1 + (column - 1) * rows,
            _ => return None,
        };
        Some(name.first + index)
    }

    /// What every value is called, and its cell.
    pub fn values(&self) -> impl Iterator<Item = (String, usize)> + '_ {
        self.0.iter().flat_map(|name| {
            let value = |index| (name.called(index), name.first + index);
            (0..name.size()).map(value)
        })
    }
}

/// One or two subscripts, each from 1 on and without a sign or a zero at its front.
fn numbers(text: &str) -> Option<Vec<usize>> {
    let number = |part: &str| {
        let plain = !part.starts_with(['0', '+']);
        plain.then(|| part.parse().ok()).flatten()
    };
    text.split(',').map(number).collect()
}

/// A word of an object or a map.
pub(crate) fn word(bytes: &[u8], at: usize) -> u32 {
    u32::from_le_bytes([bytes[at], bytes[at + 1], bytes[at + 2], bytes[at + 3]])
}
