//! The object (01 "Object"): its tables, and its bytes.

pub use crate::edition::{Edition, BODIES, CONTENTS_BYTES, ENTRY_BYTES, ENTRY_LIMITS};

/// The kinds of a format word (02, 2026-01), each with its operand.
pub mod word {
    /// A width.
    pub const NUMBER: u32 = 1;
    /// A count of columns.
    pub const BLANKS: u32 = 2;
    /// A character.
    pub const TEXT: u32 = 3;
    pub const SLASH: u32 = 4;
    /// "the index in body 8 of the word where the scan begins again".
    pub const END: u32 = 5;
}

/// One of body 2: "base, rows, columns, then multiplier, cell, signed addend for each subscript".
#[derive(Clone, Copy, Debug, PartialEq, Eq)]
pub struct ElementEntry {
    pub base: u32,
    pub rows: u32,
    pub columns: u32,
    pub subscripts: [SubscriptEntry; 2],
}

#[derive(Clone, Copy, Debug, PartialEq, Eq)]
pub struct SubscriptEntry {
    pub multiplier: u32,
    pub cell: u32,
    /// "two's complement"
    pub addend: i32,
}

/// One of body 4: "i, limit, step cells, body address".
#[derive(Clone, Copy, Debug, PartialEq, Eq)]
pub struct DoEntry {
    pub variable: u32,
    pub limit: u32,
    pub step: u32,
    pub body: u32,
}

/// One of body 6: "sequence number, statement number or 0, address".
#[derive(Clone, Copy, Debug, PartialEq, Eq)]
pub struct StatementEntry {
    pub sequence: u32,
    pub number: u32,
    pub address: u32,
}

/// One of body 7: "eight bytes blank-filled, first cell, rows, columns (0, 0 plain; columns 0
/// for one dimension)".
#[derive(Clone, Copy, Debug, PartialEq, Eq)]
pub struct NameEntry {
    pub name: [u8; 8],
    pub first: u32,
    pub rows: u32,
    pub columns: u32,
}

impl NameEntry {
    /// The cells the name takes: one, `rows`, or `rows*columns`.
    pub fn size(&self) -> u64 {
        match (self.rows, self.columns) {
            (0, _) => 1,
            (rows, 0) => u64::from(rows),
            (rows, columns) => u64::from(rows) * u64::from(columns),
        }
    }

    /// The name without its blanks.
    pub fn text(&self) -> String {
        String::from_utf8_lossy(&self.name).trim_end_matches(' ').to_string()
    }
}

/// One of body 9: "A plain name: its cell, 1. A whole array: its first cell, the number of its cells.
/// An element: its entry in body 2, 0."
#[derive(Clone, Copy, Debug, PartialEq, Eq)]
pub struct ItemEntry {
    pub first: u32,
    pub count: u32,
}

/// One of body 10: "index of the FORMAT's first word, index of the first item, number of items".
#[derive(Clone, Copy, Debug, PartialEq, Eq)]
pub struct TransferEntry {
    pub format: u32,
    pub first: u32,
    pub count: u32,
}

/// An object as its tables.
#[derive(Clone, Debug, PartialEq, Eq)]
pub struct Tables {
    pub edition: Edition,
    pub k: u32,
    pub cells: u32,
    pub constants: Vec<u32>,
    pub elements: Vec<ElementEntry>,
    pub exits: Vec<u32>,
    pub dos: Vec<DoEntry>,
    pub code: Vec<u32>,
    pub statements: Vec<StatementEntry>,
    pub names: Vec<NameEntry>,
    /// Body 8, and so on; empty in edition 1.
    pub words: Vec<u32>,
    pub items: Vec<ItemEntry>,
    pub transfers: Vec<TransferEntry>,
}

impl Tables {
    /// Tables of edition 1.
    pub fn empty(k: u32) -> Tables {
        Tables::empty_of(Edition::One, k)
    }

    pub fn empty_of(edition: Edition, k: u32) -> Tables {
        Tables {
            edition,
            k,
            cells: 0,
            constants: Vec::new(),
            elements: Vec::new(),
            exits: Vec::new(),
            dos: Vec::new(),
            code: Vec::new(),
            statements: Vec::new(),
            names: Vec::new(),
            words: Vec::new(),
            items: Vec::new(),
            transfers: Vec::new(),
        }
    }

    /// The object's bytes: contents, then "bodies .. in kind order without gaps".
    pub fn to_bytes(&self) -> Vec<u8> {
        let bodies = self.bodies();
        let mut bytes = Vec::new();
        for word in [self.edition.word(), self.k, self.cells, bodies.len() as u32] {
            put(&mut bytes, word);
        }
        let mut first = self.edition.contents_bytes();
        for (index, body) in bodies.iter().enumerate() {
            for word in [index + 1, first, body.len()] {
                put(&mut bytes, word as u32);
            }
            first += body.len();
        }
        bodies.iter().for_each(|body| bytes.extend(body));
        bytes
    }

    /// Each body's bytes, kind 1 first.
    pub fn bodies(&self) -> Vec<Vec<u8>> {
        let mut bodies = vec![
            words_to_bytes(self.constants.iter().copied()),
            words_to_bytes(self.elements.iter().flat_map(element_words)),
            words_to_bytes(self.exits.iter().copied()),
            words_to_bytes(self.dos.iter().flat_map(|d| [d.variable, d.limit, d.step, d.body])),
            words_to_bytes(self.code.iter().copied()),
            words_to_bytes(self.statements.iter().flat_map(|s| [s.sequence, s.number, s.address])),
            self.names.iter().flat_map(name_bytes).collect(),
        ];
        if self.edition >= Edition::Two {
            bodies.push(words_to_bytes(self.words.iter().copied()));
            bodies.push(words_to_bytes(self.items.iter().flat_map(|i| [i.first, i.count])));
            bodies.push(words_to_bytes(
                self.transfers.iter().flat_map(|t| [t.format, t.first, t.count]),
            ));
        }
        bodies
    }

    /// The tables in an edition's bodies that are whole numbers of entries.
    pub fn from_bodies(edition: Edition, k: u32, cells: u32, bodies: &[&[u8]]) -> Tables {
        Tables {
            edition,
            k,
            cells,
            constants: words(body(bodies, 1)),
            elements: entries(bodies, 2, element_from),
            exits: words(body(bodies, 3)),
            dos: entries(bodies, 4, do_from),
            code: words(body(bodies, 5)),
            statements: entries(bodies, 6, statement_from),
            names: entries(bodies, 7, name_from),
            words: words(body(bodies, 8)),
            items: entries(bodies, 9, item_from),
            transfers: entries(bodies, 10, transfer_from),
        }
    }
}

/// "The top eight bits name the operation, the low twenty-four the operand."
pub const fn pack(operation: u32, operand: u32) -> u32 {
    operation << 24 | operand & 0xFF_FFFF
}

pub fn unpack(word: u32) -> (u32, u32) {
    (word >> 24, word & 0xFF_FFFF)
}

/// "Words are u32, little-endian." The word at a byte, which must be there.
pub fn word_at(bytes: &[u8], first: usize) -> u32 {
    u32::from_le_bytes([bytes[first], bytes[first + 1], bytes[first + 2], bytes[first + 3]])
}

fn put(bytes: &mut Vec<u8>, word: u32) {
    bytes.extend(word.to_le_bytes());
}

fn words_to_bytes(words: impl Iterator<Item = u32>) -> Vec<u8> {
    words.flat_map(u32::to_le_bytes).collect()
}

fn words(body: &[u8]) -> Vec<u32> {
    body.chunks_exact(4).map(|word| word_at(word, 0)).collect()
}

fn entries<T>(bodies: &[&[u8]], kind: usize, from: fn(&[u8]) -> T) -> Vec<T> {
    let bytes = Edition::Two.entry_bytes()[kind - 1];
    body(bodies, kind).chunks_exact(bytes).map(from).collect()
}

/// A body's bytes; none where the edition has no such body.
fn body<'o>(bodies: &[&'o [u8]], kind: usize) -> &'o [u8] {
    bodies.get(kind - 1).copied().unwrap_or_default()
}

fn element_words(entry: &ElementEntry) -> [u32; 9] {
    let [s, t] = entry.subscripts;
    [
        entry.base,
        entry.rows,
        entry.columns,
        s.multiplier,
        s.cell,
        s.addend as u32,
        t.multiplier,
        t.cell,
        t.addend as u32,
    ]
}

fn element_from(entry: &[u8]) -> ElementEntry {
    let subscript = |first| SubscriptEntry {
        multiplier: word_at(entry, first),
        cell: word_at(entry, first + 4),
        addend: word_at(entry, first + 8) as i32,
    };
    ElementEntry {
        base: word_at(entry, 0),
        rows: word_at(entry, 4),
        columns: word_at(entry, 8),
        subscripts: [subscript(12), subscript(24)],
    }
}

fn do_from(entry: &[u8]) -> DoEntry {
    DoEntry {
        variable: word_at(entry, 0),
        limit: word_at(entry, 4),
        step: word_at(entry, 8),
        body: word_at(entry, 12),
    }
}

fn statement_from(entry: &[u8]) -> StatementEntry {
    StatementEntry {
        sequence: word_at(entry, 0),
        number: word_at(entry, 4),
        address: word_at(entry, 8),
    }
}

fn item_from(entry: &[u8]) -> ItemEntry {
    ItemEntry {
        first: word_at(entry, 0),
        count: word_at(entry, 4),
    }
}

fn transfer_from(entry: &[u8]) -> TransferEntry {
    TransferEntry {
        format: word_at(entry, 0),
        first: word_at(entry, 4),
        count: word_at(entry, 8),
    }
}

fn name_bytes(entry: &NameEntry) -> Vec<u8> {
    let mut bytes = entry.name.to_vec();
    for word in [entry.first, entry.rows, entry.columns] {
        put(&mut bytes, word);
    }
    bytes
}

fn name_from(entry: &[u8]) -> NameEntry {
    let mut name = [b' '; 8];
    name.copy_from_slice(&entry[..8]);
    NameEntry {
        name,
        first: word_at(entry, 8),
        rows: word_at(entry, 12),
        columns: word_at(entry, 16),
    }
}
