//! 42 in the bodies of edition 2 (02, 2026-01): format words, list items and transfers.

use super::element_right;
use crate::cards::is_allowed;
use crate::limits::LARGEST_NUMBER;
use crate::object::{unpack, word, ItemEntry, Tables, TransferEntry};

fn is_end(word: u32) -> bool {
    unpack(word).0 == word::END
}

/// Whether a format word does not break 42; "a last word that is no end" breaks it.
pub fn word_right(t: &Tables, index: usize) -> bool {
    let (kind, operand) = unpack(t.words[index]);
    let right = match kind {
        word::NUMBER | word::BLANKS => (1..=LARGEST_NUMBER).contains(&operand),
        word::TEXT => u8::try_from(operand).is_ok_and(is_allowed),
        word::SLASH => operand == 0,
        word::END => (first_word(t, index)..index).contains(&(operand as usize)),
        _ => false,
    };
    right && (kind == word::END || index + 1 < t.words.len())
}

/// The first word of the FORMAT that a word is in.
fn first_word(t: &Tables, index: usize) -> usize {
    let end_before = t.words[..index].iter().rposition(|word| is_end(*word));
    end_before.map_or(0, |end| end + 1)
}

/// "an element outside body 2, or a span outside the cells".
pub fn item_right(t: &Tables, item: &ItemEntry) -> bool {
    match item.count {
        0 => (item.first as usize) < t.elements.len(),
        count => u64::from(item.first) + u64::from(count) <= u64::from(t.cells),
    }
}

/// "not the first word of a FORMAT; items outside body 9; items, and no `I` in the FORMAT".
pub fn transfer_right(t: &Tables, transfer: &TransferEntry) -> bool {
    let format = transfer.format as usize;
    let begins = format < t.words.len() && first_word(t, format) == format;
    let number = |word: &u32| unpack(*word).0 == word::NUMBER;
    begins && items(t, transfer).is_some() && (transfer.count == 0 || format_words(t, format).iter().any(number))
}

/// A FORMAT's words from its first through its end.
pub fn format_words(t: &Tables, first: usize) -> &[u32] {
    let words = &t.words[first..];
    let end = words.iter().position(|word| is_end(*word));
    &words[..end.map_or(words.len(), |end| end + 1)]
}

fn items<'t>(t: &'t Tables, transfer: &TransferEntry) -> Option<&'t [ItemEntry]> {
    let first = transfer.first as usize;
    t.items.get(first..first + transfer.count as usize)
}

/// "a READ or PRINT uses its transfer, every word of its FORMAT (the end too), every item of its list and each item's
/// element entry".
pub fn transfer_uses_right(t: &Tables, transfer: &TransferEntry) -> bool {
    let first = transfer.format as usize;
    let used = |item: &ItemEntry| {
        item_right(t, item) && (item.count > 0 || element_right(t, &t.elements[item.first as usize]))
    };
    transfer_right(t, transfer)
        && (first..first + format_words(t, first).len()).all(|index| word_right(t, index))
        && items(t, transfer).is_some_and(|items| items.iter().all(used))
}
