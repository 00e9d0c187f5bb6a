//! 2 to 7: what is wrong on the cards, before any text is read.

use super::text::Text;
use super::{counted, spelled, Columns, Explanation};
use crate::CARD;

/// No deck has more.
pub const CARDS: usize = 512;
const STATEMENTS: usize = 400;
const CONTINUATIONS: usize = 9;

/// 2
pub fn length(deck: &[u8]) -> Explanation {
    let (cards, left) = (deck.len() / CARD, deck.len() % CARD);
    if deck.is_empty() {
        return Explanation::new([], "the deck is empty", "it needs one card at least, with END");
    }
    if left > 0 {
        let words = format!("{} over after {cards} cards of {CARD} bytes", counted(left, "byte"));
        return Explanation::new([], words, "a deck has no line ends, and its last card is whole");
    }
    let words = format!("the deck has {cards} cards");
    Explanation::new([], words, format!("{CARDS} at most, comments counted"))
}

/// 7
pub fn statements(texts: &[Text]) -> Option<Explanation> {
    let over = texts.get(STATEMENTS)?;
    let words = format!(
        "the deck has {} statements, and {STATEMENTS} at most are compiled",
        texts.len()
    );
    let advice = format!("the 401st begins on card {}", over.card());
    Some(Explanation::new([], words, advice))
}

/// 3: the first character that a card may not hold.
pub fn character(deck: &[u8], index: usize) -> Option<Explanation> {
    let columns = card(deck, index)?;
    let allowed = |c: &u8| matches!(c, b' ' | b'A'..=b'Z' | b'0'..=b'9') || b".)+$*-/,(=".contains(c);
    let column = columns[..72].iter().position(|c| !allowed(c))?;
    let (words, advice) = match columns[column] {
        letter @ b'a'..=b'z' => (
            format!("'{}' is lower case", char::from(letter)),
            "cards hold capitals only".to_string(),
        ),
        b'\t' => ("a tab".to_string(), "blanks bring a text to its column".to_string()),
        printed @ b'!'..=b'~' => (
            format!("'{}' is no character of a card", char::from(printed)),
            "letters, digits and . ) + $ * - / , ( = are".to_string(),
        ),
        byte => (
            format!("the byte {byte} is no character of a card"),
            "letters, digits and . ) + $ * - / , ( = are".to_string(),
        ),
    };
    Some(Explanation::new([Columns::one(index + 1, column + 1)], words, advice))
}

/// 4
pub fn number_columns(deck: &[u8], index: usize) -> Option<Explanation> {
    let columns = card(deck, index)?;
    let one = |column: usize| [Columns::one(index + 1, column + 1)];
    if continues(columns) {
        let held = columns[..5].iter().position(|c| *c != b' ')?;
        let sixth = char::from(columns[5]);
        let words = format!(
            "column 6 holds '{sixth}', so this card continues the one before, and column {} is not blank",
            held + 1
        );
        let advice = "a statement number ends in column 5; a continuation has none";
        return Some(Explanation::new(one(held), words, advice));
    }
    let Some(wrong) = columns[..5].iter().position(|c| !matches!(c, b' ' | b'0'..=b'9')) else {
        let first = columns[..5].iter().position(|c| *c != b' ')?;
        return Some(Explanation::new(
            one(first),
            "0 is no statement number",
            "they go from 1 to 99999",
        ));
    };
    let words = format!(
        "'{}' stands in columns 1 to 5, which hold a statement number",
        char::from(columns[wrong])
    );
    let advice = match columns[wrong] {
        b'C' => "a comment has its C in column 1",
        _ => "a statement's text begins in column 7",
    };
    Some(Explanation::new(one(wrong), words, advice))
}

/// 5
pub fn continuation(deck: &[u8], index: usize) -> Option<Explanation> {
    let columns = card(deck, index)?;
    let begun = deck[..index * CARD]
        .chunks_exact(CARD)
        .any(|card| card[0] != b'C' && !continues(card));
    let sixth = [Columns::one(index + 1, 6)];
    let held = format!("column 6 holds '{}'", char::from(columns[5]));
    if !begun {
        let words = format!("{held}, so this card continues a statement, and none stands before it");
        return Some(Explanation::new(
            sixth,
            words,
            "leave column 6 blank where a statement begins",
        ));
    }
    let words = format!("{held}, so this is the tenth card that continues one statement");
    let advice = format!("{} at most; make two statements of it", spelled(CONTINUATIONS));
    Some(Explanation::new(sixth, words, advice))
}

/// 6
pub fn empty(text: &Text) -> Option<Explanation> {
    let at = text.number.map_or(Columns::one(text.card(), 7), |(_, columns)| columns);
    let (words, advice) = match text.number {
        Some((number, _)) => (
            format!("the number {number} has no statement"),
            "CONTINUE is the statement that does nothing",
        ),
        None => (
            "a blank card is an empty statement".to_string(),
            "take it out, or make it a comment with C in column 1",
        ),
    };
    text.letters.is_empty().then(|| Explanation::new([at], words, advice))
}

fn card(deck: &[u8], index: usize) -> Option<&[u8]> {
    deck.chunks_exact(CARD).nth(index)
}

pub fn continues(card: &[u8]) -> bool {
    !matches!(card[5], b' ' | b'0')
}
