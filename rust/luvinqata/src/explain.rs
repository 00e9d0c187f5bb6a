//! Refusals of decks told so that one can mend the card: where, the thing itself, and what to do. None of this is proved: the
//! number and the place are the proved call's, the words are found by reading the deck again.

mod cards;
mod forms;
mod reader;
mod shape;
mod spelling;
mod tables;
mod text;
mod uses;
mod whole;

use std::fmt;

use crate::{Refusal, Rule, LONGEST_OBJECT};
use text::Text;

/// Columns of a card, both counted from 1.
#[derive(Clone, Copy, Debug, PartialEq, Eq)]
#[non_exhaustive]
pub struct Columns {
    /// The card, comments counted.
    pub card: usize,
    /// The first of the columns.
    pub first: usize,
    /// The last of them.
    pub last: usize,
}

impl Columns {
    fn one(card: usize, column: usize) -> Columns {
        Columns {
            card,
            first: column,
            last: column,
        }
    }

    /// A line to be shown under the card: carets under the columns.
    pub fn carets(&self) -> String {
        " ".repeat(self.first - 1) + &"^".repeat(self.last + 1 - self.first)
    }
}

impl fmt::Display for Columns {
    fn fmt(&self, f: &mut fmt::Formatter<'_>) -> fmt::Result {
        match self.first == self.last {
            true => write!(f, "card {}, column {}", self.card, self.first),
            false => write!(f, "card {}, columns {} to {}", self.card, self.first, self.last),
        }
    }
}

/// Why a deck was refused, and what to do.
#[derive(Clone, Debug, PartialEq, Eq)]
#[non_exhaustive]
pub struct Explanation {
    /// Where, on the cards that [`Refusal::cards`] gives; nowhere if it is about no card. A part that goes on on a second
    /// card has columns on both.
    pub at: Vec<Columns>,
    /// Another place that it is about: where a number stood first, the DO whose range it is.
    pub also: Vec<Columns>,
    /// What is wrong there, with the thing itself.
    pub words: String,
    /// What to do.
    pub advice: String,
}

impl Explanation {
    fn new(at: impl Into<Vec<Columns>>, words: impl Into<String>, advice: impl Into<String>) -> Explanation {
        Explanation {
            at: at.into(),
            also: Vec::new(),
            words: words.into(),
            advice: advice.into(),
        }
    }

    fn with(mut self, also: Vec<Columns>) -> Explanation {
        self.also = also;
        self
    }
}

impl fmt::Display for Explanation {
    /// The first place, the words, the advice.
    fn fmt(&self, f: &mut fmt::Formatter<'_>) -> fmt::Result {
        if let Some(columns) = self.at.first() {
            write!(f, "{columns}: ")?;
        }
        f.write_str(&self.words)?;
        match self.advice.is_empty() {
            true => Ok(()),
            false => write!(f, ": {}", self.advice),
        }
    }
}

impl Refusal {
    /// What a refusal of this deck is about. Of a deck that was not refused so, and for 40 to 52, there are only the
    /// number's words.
    ///
    /// ```
    /// let deck = luvinqata::punch(b"      I=47\n      J=I*123456\n      END\n").unwrap();
    /// let refusal = luvinqata::compile_to_vec(5, &deck).unwrap_err();
    /// let explanation = refusal.explain(&deck);
    /// assert_eq!(explanation.to_string(), "card 2, columns 11 to 16: 123456 has six digits: --digits 6");
    /// assert_eq!(explanation.at[0].carets(), "          ^^^^^^");
    /// ```
    pub fn explain(&self, deck: &[u8]) -> Explanation {
        let texts = text::texts(deck);
        let found = match self.place.checked_sub(1) {
            None => self.explain_deck(deck, &texts),
            Some(index) => self.explain_place(deck, &texts, index as usize),
        };
        found.unwrap_or_else(|| Explanation::new([], self.words(), ""))
    }

    /// Of what has no place.
    fn explain_deck(&self, deck: &[u8], texts: &[Text]) -> Option<Explanation> {
        match self.rule {
            Rule::Digits => {
                let words = "numbers have one to nine digits";
                Some(Explanation::new([], words, "--digits 5 is usual"))
            }
            Rule::DeckLength => Some(cards::length(deck)),
            Rule::Statements => cards::statements(texts),
            Rule::End => Some(whole::no_statement()),
            Rule::Room => {
                let advice = format!("{LONGEST_OBJECT} bytes are enough for every deck");
                Some(Explanation::new(
                    [],
                    "the object is longer than the room lent for it",
                    advice,
                ))
            }
            _ => None,
        }
    }

    /// Of a card or a statement, counted from 0.
    fn explain_place(&self, deck: &[u8], texts: &[Text], index: usize) -> Option<Explanation> {
        match self.rule {
            Rule::Character => cards::character(deck, index),
            Rule::NumberColumns => cards::number_columns(deck, index),
            Rule::Continuation => cards::continuation(deck, index),
            Rule::Empty => cards::empty(texts.get(index)?),
            Rule::Form => shape::no_form(deck, texts.get(index)?),
            Rule::Name => spelling::name(texts.get(index)?),
            Rule::Constant => spelling::constant(texts, texts.get(index)?),
            Rule::Number => spelling::number(texts.get(index)?),
            Rule::Parentheses => spelling::parentheses(texts.get(index)?),
            Rule::Dimension => uses::dimension(texts, index),
            Rule::Element => uses::element(texts, index),
            Rule::Table => tables::overfull(texts, index),
            Rule::End => whole::end(texts, index),
            Rule::DefinedTwice => whole::defined_twice(texts, index),
            Rule::Undefined => whole::undefined(texts, index),
            Rule::Range => whole::range(texts, index),
            Rule::Jump => whole::jump(texts, index),
            Rule::Variable => whole::variable(texts, index),
            _ => None,
        }
    }
}

/// A small number as one says it.
fn spelled(number: usize) -> String {
    const WORDS: [&str; 13] = [
        "no", "one", "two", "three", "four", "five", "six", "seven", "eight", "nine", "ten", "eleven", "twelve",
    ];
    WORDS
        .get(number)
        .map_or_else(|| number.to_string(), |word| word.to_string())
}

/// So many of a thing.
fn counted(number: usize, thing: &str) -> String {
    format!("{} {thing}{}", spelled(number), if number == 1 { "" } else { "s" })
}
