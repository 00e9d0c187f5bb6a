//! Decks that read and print one card of fields, with what becomes of them known from how they were made.

use super::{Made, Rng};
use crate::limits::CARD_BYTES;

/// The sorts of a punched field, those that are no number of k digits last.
pub const PUNCHED: [&str; 16] = [
    "blank",
    "digits",
    "blanks before",
    "plus",
    "minus",
    "at sign",
    "blanks after",
    "zeros before",
    "minus zero",
    "over k digits",
    "over k digits by blanks",
    "sign alone",
    "blank inside",
    "blank after the sign",
    "two signs",
    "another character",
];
const RIGHT: usize = 9;

/// The sorts of a printed field.
pub const PRINTED: [&str; 5] = [
    "with room",
    "just fits",
    "negative",
    "a digit too narrow",
    "the minus too narrow",
];

/// A deck that reads fields from a card and prints them, and what must come of it.
#[derive(Clone, Debug)]
pub struct Told {
    pub made: Made,
    pub card: Vec<u8>,
    pub punched: Vec<&'static str>,
    pub printed: Vec<&'static str>,
    /// None: halt 10 at the READ.
    pub values: Option<Vec<i64>>,
    pub line: String,
}

pub fn told_deck(rng: &mut Rng) -> Told {
    let k = rng.range(1, 9) as u32;
    let count = rng.range(1, 4);
    let wrong_at = if rng.chance(50) { rng.below(count) } else { count };
    let (mut card, mut widths, mut values, mut punched) = (String::new(), Vec::new(), Vec::new(), Vec::new());
    for index in 0..count {
        let sort = match index == wrong_at {
            true => rng.range(RIGHT, PUNCHED.len() - 1),
            false => rng.below(RIGHT),
        };
        let (text, value) = punch(rng, k, sort);
        widths.push(format!("I{}", text.len()));
        card += &text;
        punched.push(PUNCHED[sort]);
        values.push(value);
    }
    let (mut line, mut printed_widths, mut printed) = (String::new(), Vec::new(), Vec::new());
    for value in &values {
        let (sort, width, text) = print(rng, *value);
        line += &text;
        printed_widths.push(format!("I{width}"));
        printed.push(sort);
    }
    let deck = reads_and_prints(&widths, &printed_widths);
    Told {
        made: Made { k, deck },
        card: format!("{card:<CARD_BYTES$}").into_bytes(),
        punched,
        printed,
        values: (wrong_at == count).then_some(values),
        line: line.trim_end().to_string(),
    }
}

/// A READ by one FORMAT and a PRINT by another, of as many names as there are fields.
fn reads_and_prints(read: &[String], printed: &[String]) -> Vec<u8> {
    let names: String = (1..=read.len()).map(|name| format!(",N{name}")).collect();
    let statements = [
        format!("      READ1{names}"),
        format!("      PRINT2{names}"),
        format!("1     FORMAT({})", read.join(",")),
        format!("2     FORMAT({})", printed.join(",")),
        "      END".to_string(),
    ];
    let card = |text: &String| format!("{text:<CARD_BYTES$}").into_bytes();
    statements.iter().flat_map(card).collect()
}

/// A field of a sort, and its number.
fn punch(rng: &mut Rng, k: u32, sort: usize) -> (String, i64) {
    let value = rng.range(1, 10usize.pow(k) - 1) as i64;
    let digit = rng.range(1, 9);
    let sign = *rng.pick(&["-", "+", "@"]);
    match PUNCHED[sort] {
        "blank" => (" ".repeat(rng.range(1, 9)), 0),
        "digits" => (value.to_string(), value),
        "blanks before" => (format!("{}{value}", " ".repeat(rng.range(1, 5))), value),
        "plus" => (format!("+{value}"), value),
        "minus" => (format!("  -{value}"), -value),
        "at sign" => (format!("@{value}"), -value),
        "blanks after" => {
            let after = rng.range(1, 3);
            let zeros = 10i64.pow(after as u32);
            let kept = value / zeros;
            (format!("{kept}{}", " ".repeat(after)), kept * zeros)
        }
        "zeros before" => (format!("{:0>12}", value), value),
        "minus zero" => (format!("{sign}0"), 0),
        "over k digits" => (format!("{digit}{:0>1$}", rng.below(10), k as usize), 0),
        "over k digits by blanks" => (format!("{digit}{}", " ".repeat(k as usize)), 0),
        "sign alone" => (format!(" {sign}"), 0),
        "blank inside" => (format!("{digit} {digit}"), 0),
        "blank after the sign" => (format!("{sign} {digit}"), 0),
        "two signs" => (format!("{sign}+{digit}"), 0),
        _ => (format!("{}{digit}", *rng.pick(&["A", ".", "*", "=", "O", "#"])), 0),
    }
}

/// A printed field's sort, its width and its columns.
fn print(rng: &mut Rng, value: i64) -> (&'static str, usize, String) {
    let written = value.to_string();
    let digits = written.trim_start_matches('-').len();
    let asterisks = |width: usize| "*".repeat(width);
    match rng.below(3) {
        0 if value < 0 => ("the minus too narrow", digits, asterisks(digits)),
        1 if digits > 1 => ("a digit too narrow", digits - 1, asterisks(digits - 1)),
        _ if value < 0 => ("negative", digits + 3, format!("  {written}")),
        0 => ("just fits", digits, written),
        _ => ("with room", digits + 2, format!("  {written}")),
    }
}
