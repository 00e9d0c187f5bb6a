//! 10: how far a text of no form could be read, and why not further.

use super::cards::continues;
use super::forms::{read, Stuck, OPERATOR_OR_CLOSE, OPERATOR_OR_END};
use super::text::Text;
use super::{Columns, Explanation};
use crate::CARD;

/// Statements of other Fortrans. A text that begins so and is of no form is taken for one.
const OTHERS: [&str; 18] = [
    "READ",
    "PRINT",
    "PUNCH",
    "WRITE",
    "FORMAT",
    "PAUSE",
    "REWIND",
    "BACKSPACE",
    "CALL",
    "RETURN",
    "SUBROUTINE",
    "FUNCTION",
    "COMMON",
    "EQUIVALENCE",
    "ASSIGN",
    "SENSE",
    "DATA",
    "TYPE",
];

/// So much of what was read is shown.
const SHOWN: usize = 24;

pub fn no_form(deck: &[u8], text: &Text) -> Option<Explanation> {
    let stuck = *text.read.as_ref().err()?;
    if let Some(word) = OTHERS.iter().find(|word| text.letters.starts_with(word.as_bytes())) {
        let words = format!("{word} is no statement of these decks");
        let advice = "assignment, GO TO, IF, DO, CONTINUE, STOP, END and DIMENSION are";
        return Some(Explanation::new(text.columns(0..word.len()), words, advice));
    }
    if let Some(explanation) = ran_on(deck, text, stuck) {
        return Some(explanation);
    }
    if let Some(explanation) = word_with_tail(text) {
        return Some(explanation);
    }
    let (words, advice) = reason(text, stuck);
    Some(Explanation::new([text.after(stuck.at)], words, advice))
}

/// A card that was meant to begin a statement: what stands before it is a statement by itself.
fn ran_on(deck: &[u8], text: &Text, stuck: Stuck) -> Option<Explanation> {
    let runs_on = |card: &&usize| {
        let (before, columns) = (text.before(**card), deck.chunks_exact(CARD).nth(**card - 1));
        let by_chance = columns.is_some_and(|columns| continues(columns) && columns[5].is_ascii_uppercase());
        before <= stuck.at && (before == stuck.at || by_chance) && read(&text.letters[..before]).is_ok()
    };
    let card = *text.cards.iter().skip(1).find(runs_on)?;
    let words = "column 6 is not blank, so this card continues the one before";
    let advice = "leave it blank where a statement begins";
    Some(Explanation::new([Columns::one(card, 6)], words, advice))
}

/// `STOP 5`
fn word_with_tail(text: &Text) -> Option<Explanation> {
    if text.letters.contains(&b'=') {
        return None;
    }
    let word = ["CONTINUE", "STOP", "END"]
        .into_iter()
        .find(|word| text.letters.starts_with(word.as_bytes()))?;
    let tail = word.len()..text.letters.len();
    let words = format!("'{}' stands after {word}", text.show(tail.clone()));
    Some(Explanation::new(
        text.columns(tail),
        words,
        format!("{word} stands alone"),
    ))
}

/// What is wrong at the character where reading stopped.
fn reason(text: &Text, stuck: Stuck) -> (String, String) {
    let before = stuck.at.checked_sub(1).map(|at| text.letters[at]);
    let here = text.letters.get(stuck.at).copied();
    let shown = shown(text, stuck.at);
    let joins = matches!(stuck.wanted, OPERATOR_OR_END | OPERATOR_OR_CLOSE);
    let (words, advice) = match (before, here) {
        (_, Some(b'.')) => ("a decimal point".to_string(), "floating-point decks are not compiled"),
        (Some(b'*'), Some(b'*')) => (
            "** is no operator of these decks".to_string(),
            "write the product out, as I*I",
        ),
        (Some(b'+' | b'-' | b'*' | b'/'), Some(sign @ (b'+' | b'-'))) => (
            format!("'{}' stands after an operator", char::from(sign)),
            "a sign stands first, or first in parentheses, as 2*(-3)",
        ),
        (_, None) if stuck.open => ("a parenthesis is not closed".to_string(), "')' is missing"),
        (_, None) => (format!("the statement breaks off after '{shown}'"), ""),
        (_, Some(b')')) if stuck.wanted == OPERATOR_OR_END => (
            "this ')' closes no parenthesis".to_string(),
            "take it out, or open one before it",
        ),
        (_, Some(c @ (b'A'..=b'Z' | b'0'..=b'9' | b'('))) if joins => (
            format!("'{}' follows '{shown}' with nothing between them", char::from(c)),
            "an operator is missing",
        ),
        (None, Some(c)) => (format!("no statement begins with '{}'", char::from(c)), ""),
        (_, Some(c)) => (
            format!("'{shown}' can be read, '{}' after it cannot", char::from(c)),
            "",
        ),
    };
    match advice {
        "" => (words, format!("{} is wanted here", stuck.wanted)),
        _ => (words, advice.to_string()),
    }
}

/// What was read, or the last of it.
fn shown(text: &Text, read: usize) -> String {
    match read.checked_sub(SHOWN) {
        None | Some(0) => text.show(0..read),
        Some(first) => format!("..{}", text.show(first..read)),
    }
}
