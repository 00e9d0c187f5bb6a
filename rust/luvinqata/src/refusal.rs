//! Refusals: the rule, and where it was broken.

use std::fmt;

use crate::Rule;

/// Why a call was refused. Nothing that was lent has changed.
///
/// ```
/// let refusal = luvinqata::check(b"").unwrap_err();
/// assert_eq!((refusal.rule, refusal.number()), (luvinqata::Rule::Object, 40));
/// assert!(refusal.to_string().starts_with("refused 40: "));
/// ```
#[derive(Clone, Copy, Debug, PartialEq, Eq)]
#[non_exhaustive]
pub struct Refusal {
    /// Which rule was broken.
    pub rule: Rule,
    /// A card for 3 to 5, a statement's sequence number for 6 and 10 to 25, an entry counted from 0 for 42 and 43; else 0.
    pub place: u32,
    /// The kind of the body that the entry is in, for 42 and 43; else 0.
    pub kind: u32,
}

/// A number other than 0 is a refusal.
pub(crate) fn pass(number: u32, place: u32, kind: u32) -> Result<(), Refusal> {
    if number == 0 {
        return Ok(());
    }
    let rule = Rule::with_number(number).expect("the proved calls refuse by the book's numbers only");
    Err(Refusal { rule, place, kind })
}

impl Refusal {
    /// The rule's number.
    pub fn number(&self) -> u32 {
        self.rule.number()
    }

    /// What the number means, in plain words.
    ///
    /// ```
    /// let refusal = luvinqata::compile(10, b"", &mut []).unwrap_err();
    /// assert_eq!(refusal.words(), "the digits are not 1 to 9");
    /// ```
    pub fn words(&self) -> &'static str {
        match (self.rule, self.kind) {
            (Rule::Entry, 1) => "a pooled constant over k digits",
            (Rule::Entry, 2) => {
                "an element's multiplier or addend over k digits, rows or columns 0, or a span or cell outside the cells"
            }
            (Rule::Entry, 4) => "a DO's cell outside the cells, or its address outside the code",
            (Rule::Entry, 6) => "a statement's address outside the code",
            (Rule::Entry, 7) => {
                "a name not of I to N and up to five letters or digits, with columns and no rows, or outside the cells"
            }
            (Rule::Entry, 8) => {
                "a FORMAT's word of no kind, a width or count 0 or over 99999, a character of no deck, a slash's operand, or a wrong end"
            }
            (Rule::Entry, 9) => "a list's item outside the elements or the cells",
            (Rule::Entry, 10) => {
                "a transfer not by a FORMAT's first word, with items outside the lists, or with items and no I in the FORMAT"
            }
            (rule, _) => rule.words(),
        }
    }
}

impl fmt::Display for Refusal {
    fn fmt(&self, f: &mut fmt::Formatter<'_>) -> fmt::Result {
        write!(f, "refused {}", self.rule)?;
        match self.number() {
            3..=5 => write!(f, " at card {}", self.place)?,
            6 | 10..=25 if self.place > 0 => write!(f, " at statement {}", self.place)?,
            42 => write!(f, " at entry {} of body {}", self.place, self.kind)?,
            43 => write!(f, " at instruction {}", self.place)?,
            _ => {}
        }
        write!(f, ": {}", self.words())
    }
}

impl std::error::Error for Refusal {}

#[cfg(test)]
mod tests {
    use super::*;

    /// Each number and kind, with words that only it has.
    const WORDS: [(u32, u32, &str); 38] = [
        (1, 0, "the digits are not 1 to 9"),
        (2, 0, "512 cards of 80 bytes"),
        (3, 0, "a character that a card may not hold"),
        (4, 0, "columns 1 to 5"),
        (5, 0, "a tenth continuation"),
        (6, 0, "an empty statement"),
        (7, 0, "over 400 statements"),
        (10, 0, "no known form"),
        (11, 0, "a name over six characters"),
        (12, 0, "over k digits as written"),
        (13, 0, "not 1 to 99999"),
        (14, 0, "parentheses over sixteen deep"),
        (15, 0, "a dimension 0"),
        (16, 0, "an undeclared array"),
        (18, 0, "takes a table over its limit"),
        (20, 0, "END is missing"),
        (21, 0, "defined twice"),
        (22, 0, "used and never defined"),
        (23, 0, "a DO's last statement"),
        (24, 0, "a jump into a DO's range"),
        (25, 0, "a DO's variable set"),
        (30, 0, "the output is too short"),
        (40, 0, "the edition"),
        (41, 0, "cells or a table are over their limit"),
        (42, 0, "an entry of a body"),
        (42, 1, "a pooled constant"),
        (42, 2, "an element's multiplier"),
        (42, 4, "a DO's cell"),
        (42, 6, "a statement's address"),
        (42, 7, "up to five letters or digits"),
        (42, 8, "a FORMAT's word of no kind"),
        (42, 9, "a list's item"),
        (42, 10, "a transfer not by a FORMAT's first word"),
        (43, 0, "an unknown operation"),
        (44, 0, "no table of heights"),
        (50, 0, "the store is shorter"),
        (51, 0, "a cell of the store over k digits"),
        (52, 0, "the state's index"),
    ];

    #[test]
    fn a_refusal_tells_itself_in_words() {
        let refusal = |number, kind| pass(number, 3, kind).expect_err("a number");
        assert_eq!(
            refusal(42, 6).to_string(),
            "refused 42 at entry 3 of body 6: a statement's address outside the code"
        );
        for (number, kind, phrase) in WORDS {
            for (other, other_kind, other_phrase) in WORDS {
                let has = refusal(other, other_kind).words().contains(phrase);
                assert_eq!(
                    has,
                    phrase == other_phrase,
                    "{number} {kind} and {other} {other_kind}: {phrase}"
                );
            }
        }
        let numbers = Rule::ALL.map(Rule::number);
        assert!(numbers.is_sorted() && numbers.iter().all(|n| WORDS.iter().any(|(number, ..)| number == n)));
        assert!([0, 8, 17, 53, u32::MAX]
            .map(Rule::with_number)
            .iter()
            .all(Option::is_none));
    }
}
