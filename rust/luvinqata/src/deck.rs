//! Decks as people hold them: lines of text to cards, and the cards of a statement to show.

use std::fmt;

use crate::Refusal;

/// The bytes of a card.
pub const CARD: usize = 80;
/// One card more than a deck may have.
const TOO_MANY: usize = 513;

/// A line of text that is longer than a card.
#[derive(Clone, Copy, Debug, PartialEq, Eq)]
#[non_exhaustive]
pub struct LongLine {
    /// The line, counted from 1.
    pub line: usize,
}

impl fmt::Display for LongLine {
    fn fmt(&self, f: &mut fmt::Formatter<'_>) -> fmt::Result {
        write!(f, "line {} is longer than the {CARD} columns of a card", self.line)
    }
}

impl std::error::Error for LongLine {}

/// The deck of a plain text: a card for each line, shorter lines filled with blanks. Line ends may be of either sort, and
/// the last line may have none. Blank lines at the end are no cards, and after the 513th card, with which every deck is
/// refused, no more are punched. A byte order mark, which some editors put first, is left out.
///
/// ```
/// let deck = luvinqata::punch(b"      I=47\n      END\n").unwrap();
/// assert_eq!(deck.len(), 160);
/// assert_eq!(&deck[80..91], b"      END  ");
/// assert_eq!(luvinqata::punch("\u{feff}      I=47\r\n      END".as_bytes()).unwrap(), deck);
/// assert_eq!(luvinqata::punch(b"      I=47\n      END\n\n  \r\n").unwrap(), deck);
/// assert_eq!(luvinqata::punch(b"\n      END").unwrap()[80..], deck[80..], "a blank line before others is a card");
/// assert_eq!(luvinqata::punch(&[b' '; 81]).unwrap_err().line, 1);
/// let endless = [&b"\n".repeat(1_000_000)[..], b"      END"].concat();
/// assert_eq!(luvinqata::punch(&endless).unwrap().len(), 513 * 80);
/// ```
pub fn punch(text: &[u8]) -> Result<Vec<u8>, LongLine> {
    let mut deck = Vec::new();
    let text = text.strip_prefix(b"\xEF\xBB\xBF").unwrap_or(text);
    for (index, line) in text.split(|byte| *byte == b'\n').enumerate() {
        let line = line.strip_suffix(b"\r").unwrap_or(line);
        if line.len() > CARD {
            return Err(LongLine { line: index + 1 });
        }
        if line.iter().all(|byte| *byte == b' ') {
            continue;
        }
        deck.resize(CARD * index.min(TOO_MANY), b' ');
        if index >= TOO_MANY {
            break;
        }
        deck.extend_from_slice(line);
        deck.resize(CARD * (index + 1), b' ');
    }
    Ok(deck)
}

/// A card of a deck, to be shown.
#[derive(Clone, Copy, Debug, PartialEq, Eq)]
#[non_exhaustive]
pub struct Card<'d> {
    /// Which card of the deck, counted from 1, comments too.
    pub number: usize,
    /// Its 80 columns.
    pub columns: &'d [u8],
}

impl fmt::Display for Card<'_> {
    /// As punched, with `?` for a byte that cannot be printed and without the blanks at its end.
    fn fmt(&self, f: &mut fmt::Formatter<'_>) -> fmt::Result {
        let shown = |byte: &u8| match byte {
            b' '..=b'~' => char::from(*byte),
            _ => '?',
        };
        let line: String = self.columns.iter().map(shown).collect();
        write!(f, "{}", line.trim_end())
    }
}

/// The cards of the statement with a sequence number; none if the deck has no such statement.
///
/// ```
/// let deck = luvinqata::punch(b"C CUBE\n      I=47*47\n     1*47\n      END").unwrap();
/// let cards = luvinqata::statement(&deck, 1);
/// assert_eq!(cards.iter().map(|card| card.number).collect::<Vec<_>>(), [2, 3]);
/// assert_eq!(cards[1].to_string(), "     1*47");
/// ```
pub fn statement(deck: &[u8], sequence: u32) -> Vec<Card<'_>> {
    let mut met = 0;
    let mut cards = Vec::new();
    for (index, columns) in deck.chunks_exact(CARD).enumerate() {
        if columns[0] == b'C' {
            continue;
        }
        met += u32::from(matches!(columns[5], b' ' | b'0'));
        if met == sequence && met > 0 {
            cards.push(Card {
                number: index + 1,
                columns,
            });
        }
    }
    cards
}

impl Refusal {
    /// The cards that a refusal of this deck is about; none if it is about no card.
    ///
    /// ```
    /// let deck = luvinqata::punch(b"      I=1\n      A=2\n      END").unwrap();
    /// let refusal = luvinqata::compile(5, &deck, &mut []).unwrap_err();
    /// assert_eq!(refusal.number(), 11);
    /// assert_eq!(refusal.cards(&deck)[0].to_string(), "      A=2");
    /// ```
    pub fn cards<'d>(&self, deck: &'d [u8]) -> Vec<Card<'d>> {
        let number = self.place as usize;
        match self.number() {
            3..=5 => deck
                .chunks_exact(CARD)
                .enumerate()
                .filter(|(index, _)| index + 1 == number)
                .map(|(_, columns)| Card { number, columns })
                .collect(),
            6 | 10..=25 => statement(deck, self.place),
            _ => Vec::new(),
        }
    }
}
