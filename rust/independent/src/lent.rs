//! What is lent to a run (02, 2026-01): cards to be read, and room for lines.

use crate::field;
use crate::limits::{CARD_BYTES, LINE_BYTES};

/// "A line is the record as built: 132 columns".
pub type Line = [u8; LINE_BYTES];

/// Cards and room, and what a run took and wrote of them.
#[derive(Clone, Debug, PartialEq, Eq)]
pub struct Lent<'c> {
    cards: &'c [u8],
    room: usize,
    taken: usize,
    lines: Vec<Line>,
}

impl<'c> Lent<'c> {
    /// "Every whole 80 are a card"; the room is in lines.
    pub fn new(cards: &'c [u8], room: usize) -> Lent<'c> {
        Lent {
            cards,
            room,
            taken: 0,
            lines: Vec::new(),
        }
    }

    pub fn nothing() -> Lent<'static> {
        Lent::new(&[], 0)
    }

    /// Cards taken.
    pub fn taken(&self) -> usize {
        self.taken
    }

    /// Lines written.
    pub fn lines(&self) -> &[Line] {
        &self.lines
    }

    /// What is left of the cards, and of the room.
    pub fn rest(&self) -> (&'c [u8], usize) {
        (&self.cards[self.taken * CARD_BYTES..], self.room - self.lines.len())
    }

    /// The lines written, "without the blanks at its end".
    pub fn shown(&self) -> impl Iterator<Item = String> + '_ {
        let shown = |line: &Line| String::from_utf8_lossy(line).trim_end_matches(' ').to_string();
        self.lines.iter().map(shown)
    }
}

/// Why a READ or PRINT halts.
#[derive(Clone, Copy, Debug, PartialEq, Eq, PartialOrd, Ord)]
pub enum Trouble {
    Subscript,
    NoCard,
    NoLine,
    CardColumn,
    LineColumn,
    NoNumber,
    TooLong,
}

impl Trouble {
    pub const ALL: [Trouble; 7] = [
        Trouble::Subscript,
        Trouble::NoCard,
        Trouble::NoLine,
        Trouble::CardColumn,
        Trouble::LineColumn,
        Trouble::NoNumber,
        Trouble::TooLong,
    ];

    /// "halt 9 when cards or lines run out, halt 10 when a field isn't a number of at most k digits or passes column 80
    /// of a card, 132 of a line".
    pub fn halt(self) -> u32 {
        match self {
            Trouble::Subscript => 4,
            Trouble::NoCard | Trouble::NoLine => 9,
            Trouble::CardColumn | Trouble::LineColumn | Trouble::NoNumber | Trouble::TooLong => 10,
        }
    }
}

/// A READ under way. Nothing is taken of what is lent before `done`.
pub struct Reading<'c> {
    cards: &'c [u8],
    taken: usize,
    card: &'c [u8],
    column: usize,
}

impl<'c> Reading<'c> {
    /// "READ takes a card when it begins".
    pub fn begin(lent: &Lent<'c>) -> Result<Reading<'c>, Trouble> {
        let mut reading = Reading {
            cards: lent.cards,
            taken: lent.taken,
            card: &[],
            column: 0,
        };
        reading.next_card()?;
        Ok(reading)
    }

    pub fn next_card(&mut self) -> Result<(), Trouble> {
        let first = self.taken * CARD_BYTES;
        self.card = self.cards.get(first..first + CARD_BYTES).ok_or(Trouble::NoCard)?;
        self.taken += 1;
        self.column = 0;
        Ok(())
    }

    pub fn skip(&mut self, columns: usize) -> Result<(), Trouble> {
        self.columns(columns).map(|_| ())
    }

    pub fn number(&mut self, k: u32, width: usize) -> Result<i64, Trouble> {
        field::read(k, self.columns(width)?)
    }

    fn columns(&mut self, width: usize) -> Result<&'c [u8], Trouble> {
        let columns = self
            .card
            .get(self.column..self.column + width)
            .ok_or(Trouble::CardColumn)?;
        self.column += width;
        Ok(columns)
    }

    pub fn done(self, lent: &mut Lent) {
        lent.taken = self.taken;
    }
}

/// A PRINT under way. Nothing is written where lines are lent before `done`.
pub struct Printing {
    room: usize,
    lines: Vec<Line>,
    line: Line,
    column: usize,
}

impl Printing {
    pub fn begin(lent: &Lent) -> Printing {
        Printing {
            room: lent.room - lent.lines.len(),
            lines: Vec::new(),
            line: [b' '; LINE_BYTES],
            column: 0,
        }
    }

    /// "a line's room (9) only when it is written, after its fields".
    pub fn next_line(&mut self) -> Result<(), Trouble> {
        if self.lines.len() == self.room {
            return Err(Trouble::NoLine);
        }
        self.lines.push(self.line);
        self.line.fill(b' ');
        self.column = 0;
        Ok(())
    }

    pub fn skip(&mut self, columns: usize) -> Result<(), Trouble> {
        self.columns(columns).map(|_| ())
    }

    pub fn character(&mut self, character: u8) -> Result<(), Trouble> {
        self.columns(1).map(|columns| columns.fill(character))
    }

    pub fn number(&mut self, value: i64, width: usize) -> Result<(), Trouble> {
        self.columns(width).map(|columns| field::print(value, columns))
    }

    fn columns(&mut self, width: usize) -> Result<&mut [u8], Trouble> {
        let from = self.column;
        let columns = self.line.get_mut(from..from + width).ok_or(Trouble::LineColumn)?;
        self.column += width;
        Ok(columns)
    }

    pub fn done(mut self, lent: &mut Lent) {
        lent.lines.append(&mut self.lines);
    }
}
