//! A deck's statements as they are punched: each text without its blanks, and where every character of it stands.

use std::ops::Range;

use super::cards::CARDS;
use super::forms::{read, Form, Part, Piece, Read, Stuck};
use super::Columns;
use crate::CARD;

/// The text columns of a first card and nine continuations: no statement has more.
const LONGEST: usize = 660;

/// A statement's text.
pub struct Text {
    /// The statement number in columns 1 to 5, if there is one, and where.
    pub number: Option<(u32, Columns)>,
    /// Its cards, counted from 1.
    pub cards: Vec<usize>,
    /// The characters of columns 7 to 72 without blanks, `$` read as `*`.
    pub letters: Vec<u8>,
    /// The card and the column of each.
    places: Vec<(usize, usize)>,
    /// The form that the text is of, or how far it could be read.
    pub read: Result<Read, Stuck>,
}

/// The texts of a deck, in card order.
pub fn texts(deck: &[u8]) -> Vec<Text> {
    let mut texts: Vec<Text> = Vec::new();
    for (index, columns) in deck.chunks_exact(CARD).take(CARDS).enumerate() {
        if columns[0] == b'C' {
            continue;
        }
        if matches!(columns[5], b' ' | b'0') {
            texts.push(Text::begin(index + 1, columns));
        }
        if let Some(text) = texts.last_mut() {
            text.take(index + 1, columns);
        }
    }
    texts.iter_mut().for_each(|text| text.read = read(&text.letters));
    texts
}

impl Text {
    fn begin(card: usize, columns: &[u8]) -> Text {
        let digits: String = columns[..5]
            .iter()
            .filter(|c| **c != b' ')
            .map(|c| char::from(*c))
            .collect();
        let held = |column: &usize| columns[column - 1] != b' ';
        let bounds = (1..=5).find(held).zip((1..=5).rfind(held));
        let number = bounds.and_then(|(first, last)| Some((digits.parse().ok()?, Columns { card, first, last })));
        Text {
            number,
            cards: Vec::new(),
            letters: Vec::new(),
            places: Vec::new(),
            read: Err(Stuck::default()),
        }
    }

    fn take(&mut self, card: usize, columns: &[u8]) {
        self.cards.push(card);
        for column in 7..=72 {
            let letter = columns[column - 1];
            if letter != b' ' && self.letters.len() < LONGEST {
                self.letters.push(if letter == b'$' { b'*' } else { letter });
                self.places.push((card, column));
            }
        }
    }

    /// A part of the text, as one writes it.
    pub fn show(&self, part: Range<usize>) -> String {
        String::from_utf8_lossy(&self.letters[part]).into_owned()
    }

    /// The columns from the first to the last character of a part, card by card.
    pub fn columns(&self, part: Range<usize>) -> Vec<Columns> {
        let mut columns: Vec<Columns> = Vec::new();
        for (card, column) in &self.places[part] {
            match columns.last_mut() {
                Some(last) if last.card == *card => last.last = *column,
                _ => columns.push(Columns::one(*card, *column)),
            }
        }
        columns
    }

    /// The columns of a piece.
    pub fn at(&self, piece: &Piece) -> Vec<Columns> {
        self.columns(piece.at.clone())
    }

    /// A piece as one writes it.
    pub fn written(&self, piece: &Piece) -> String {
        self.show(piece.at.clone())
    }

    /// Where the next character after so many stands, or would stand.
    pub fn after(&self, read: usize) -> Columns {
        match (self.places.get(read), self.places.last()) {
            (Some((card, column)), _) => Columns::one(*card, *column),
            (None, Some((card, column))) => Columns::one(*card, (column + 1).min(72)),
            (None, None) => Columns::one(self.card(), 7),
        }
    }

    /// The columns of the whole text.
    pub fn whole(&self) -> Vec<Columns> {
        self.columns(0..self.letters.len())
    }

    /// The first card.
    pub fn card(&self) -> usize {
        self.cards.first().copied().unwrap_or(0)
    }

    /// How much of the text stands before a card.
    pub fn before(&self, card: usize) -> usize {
        self.places.iter().take_while(|(at, _)| *at < card).count()
    }

    pub fn is(&self, form: Form) -> bool {
        self.read.as_ref().is_ok_and(|read| read.form == form)
    }

    /// What was read, if the text is of a form.
    pub fn pieces(&self) -> &[Piece] {
        self.read.as_ref().map_or(&[], |read| &read.pieces)
    }

    /// The names in it, with their counts of subscripts.
    pub fn names(&self) -> impl Iterator<Item = (String, usize, &Piece)> + '_ {
        self.pieces().iter().filter_map(|piece| match piece.part {
            Part::Name { subscripts } => Some((self.written(piece), subscripts, piece)),
            _ => None,
        })
    }

    /// The statement numbers in it that it goes to or ends at.
    pub fn numbers(&self) -> impl Iterator<Item = (u32, &Piece)> + '_ {
        let numbers = self.pieces().iter().filter(|piece| piece.part == Part::Number);
        numbers.map(|piece| (self.value(piece), piece))
    }

    /// The value of a run of digits; the largest u32 for one that is too long.
    pub fn value(&self, piece: &Piece) -> u32 {
        self.written(piece).parse().unwrap_or(u32::MAX)
    }
}
