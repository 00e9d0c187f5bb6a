//! The reasons that 2026-01 brings, in the bodies of edition 2.

use super::{held, Reason};
use crate::cards::is_allowed;
use crate::check::format_words;
use crate::limits::LARGEST_NUMBER;
use crate::object::{unpack, word, ItemEntry, Tables, TransferEntry};

/// Every reason beside those of the base, the limits of bodies 8 to 10 first.
pub const CARD_REASONS: [Reason; 21] = [
    "41 format words",
    "41 list items",
    "41 transfers",
    "42 word: unknown kind",
    "42 word: width 0",
    "42 word: width over 99999",
    "42 word: columns 0",
    "42 word: columns over 99999",
    "42 word: character",
    "42 word: a slash's operand",
    "42 word: the last no end",
    "42 word: end before its FORMAT",
    "42 word: end not before itself",
    "42 item: element",
    "42 item: span",
    "42 transfer: outside body 8",
    "42 transfer: not a first word",
    "42 transfer: items",
    "42 transfer: no I",
    "43 READ: operand",
    "43 PRINT: operand",
];

pub fn of_entry(t: &Tables, kind: u32, entry: usize) -> Vec<Reason> {
    match kind {
        8 => of_word(t, entry),
        9 => of_item(&t.items[entry]),
        _ => of_transfer(t, &t.transfers[entry]),
    }
}

fn is_end(word: &u32) -> bool {
    unpack(*word).0 == word::END
}

fn of_word(t: &Tables, index: usize) -> Vec<Reason> {
    let (kind, operand) = unpack(t.words[index]);
    let end_before = (0..index).rev().find(|before| is_end(&t.words[*before]));
    let first = end_before.map_or(0, |end| end + 1);
    let character = u8::try_from(operand).is_ok_and(is_allowed);
    let over = operand > LARGEST_NUMBER;
    held(&[
        (!(word::NUMBER..=word::END).contains(&kind), "42 word: unknown kind"),
        (kind == word::NUMBER && operand == 0, "42 word: width 0"),
        (kind == word::NUMBER && over, "42 word: width over 99999"),
        (kind == word::BLANKS && operand == 0, "42 word: columns 0"),
        (kind == word::BLANKS && over, "42 word: columns over 99999"),
        (kind == word::TEXT && !character, "42 word: character"),
        (kind == word::SLASH && operand != 0, "42 word: a slash's operand"),
        (
            kind != word::END && index + 1 == t.words.len(),
            "42 word: the last no end",
        ),
        (
            kind == word::END && (operand as usize) < first,
            "42 word: end before its FORMAT",
        ),
        (
            kind == word::END && operand as usize >= index,
            "42 word: end not before itself",
        ),
    ])
}

fn of_item(item: &ItemEntry) -> Vec<Reason> {
    vec![match item.count {
        0 => "42 item: element",
        _ => "42 item: span",
    }]
}

fn of_transfer(t: &Tables, x: &TransferEntry) -> Vec<Reason> {
    let format = x.format as usize;
    let outside = format >= t.words.len();
    let inside = !outside && format > 0 && !is_end(&t.words[format - 1]);
    let numbered = |word: &u32| unpack(*word).0 == word::NUMBER;
    let without = !outside && !inside && x.count > 0 && !format_words(t, format).iter().any(numbered);
    held(&[
        (outside, "42 transfer: outside body 8"),
        (inside, "42 transfer: not a first word"),
        (
            u64::from(x.first) + u64::from(x.count) > t.items.len() as u64,
            "42 transfer: items",
        ),
        (without, "42 transfer: no I"),
    ])
}
