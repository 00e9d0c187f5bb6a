//! What READ takes and where PRINT writes: cards and lines, and how far a run has come in them.

use std::borrow::Cow;

use crate::{Ran, Refusal, CARD};

/// The bytes of a printed line.
pub const LINE: usize = 132;

/// Cards to be read, and how many of them are taken. Every whole 80 bytes are a card.
#[derive(Clone, Debug, Default, PartialEq, Eq)]
pub struct Cards<'c> {
    bytes: Cow<'c, [u8]>,
    taken: usize,
}

impl<'c> Cards<'c> {
    /// Cards of which none is taken.
    ///
    /// ```
    /// let cards = luvinqata::punch(b"   47\n   12\n").unwrap();
    /// assert_eq!(luvinqata::Cards::new(&cards).left(), cards);
    /// ```
    pub fn new(bytes: impl Into<Cow<'c, [u8]>>) -> Cards<'c> {
        Cards {
            bytes: bytes.into(),
            taken: 0,
        }
    }

    /// The same cards after so many of them, for a run that another process goes on with.
    ///
    /// ```
    /// let cards = luvinqata::punch(b"   47\n   12\n").unwrap();
    /// assert_eq!(luvinqata::Cards::new(&cards).after(1).left(), &cards[80..]);
    /// assert_eq!(luvinqata::Cards::new(&cards).after(7).left(), []);
    /// ```
    #[must_use]
    pub fn after(self, taken: usize) -> Cards<'c> {
        let taken = taken.min(self.bytes.len() / CARD);
        Cards { taken, ..self }
    }

    /// How many are taken.
    pub fn taken(&self) -> usize {
        self.taken
    }

    /// The rest, that the next run is lent.
    pub fn left(&self) -> &[u8] {
        &self.bytes[CARD * self.taken..]
    }
}

/// Room for lines, and the lines written. The room takes [`LINE`] bytes for each line.
#[derive(Clone, Debug, Default, PartialEq, Eq)]
pub struct Lines {
    bytes: Vec<u8>,
    written: usize,
}

impl Lines {
    /// Room for so many lines.
    pub fn with_room(lines: usize) -> Lines {
        Lines {
            bytes: vec![0; LINE * lines],
            written: 0,
        }
    }

    /// The lines written, each with its 132 columns.
    pub fn bytes(&self) -> &[u8] {
        &self.bytes[..LINE * self.written]
    }

    /// The lines written, without the blanks at their ends.
    pub fn iter(&self) -> impl Iterator<Item = &str> {
        let text = |line| std::str::from_utf8(line).expect("a line is of digits and a deck's characters");
        self.bytes()
            .chunks_exact(LINE)
            .map(move |line| text(line).trim_end_matches(' '))
    }

    /// How many lines more there is room for.
    pub fn room(&self) -> usize {
        self.bytes.len() / LINE - self.written
    }
}

/// The cards and the room for lines that runs are lent, one after the other: each gets what those before it left.
#[derive(Clone, Debug, Default, PartialEq, Eq)]
pub struct Trays<'c> {
    /// What READ takes.
    pub cards: Cards<'c>,
    /// Where PRINT writes.
    pub lines: Lines,
}

impl<'c> Trays<'c> {
    /// These cards, and room for so many lines.
    pub fn new(cards: impl Into<Cow<'c, [u8]>>, lines: usize) -> Trays<'c> {
        Trays {
            cards: Cards::new(cards),
            lines: Lines::with_room(lines),
        }
    }

    /// No card and no room.
    pub fn empty() -> Trays<'c> {
        Trays::default()
    }

    /// Lends the rest, and goes on by what the call took and wrote.
    pub(crate) fn lend(&mut self, call: impl FnOnce(&[u8], &mut [u8]) -> Result<Ran, Refusal>) -> Result<Ran, Refusal> {
        let ran = call(self.cards.left(), &mut self.lines.bytes[LINE * self.lines.written..])?;
        self.cards.taken += ran.cards;
        self.lines.written += ran.lines;
        Ok(ran)
    }
}
