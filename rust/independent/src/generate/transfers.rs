//! The bodies of edition 2 in random objects, right or with one rule broken.

use super::Rng;
use crate::limits::LARGEST_NUMBER;
use crate::object::{pack, unpack, word, ItemEntry, Tables, TransferEntry};

/// Gives an object right words, items and transfers: two FORMATs or more, the first with an I and the second without.
pub fn fill(rng: &mut Rng, t: &mut Tables) {
    let mut formats = Vec::new();
    for index in 0..rng.range(2, 4) {
        let numbered = index == 0 || index > 1 && rng.chance(60);
        formats.push((t.words.len() as u32, numbered));
        format(rng, numbered, &mut t.words);
    }
    t.items = (0..rng.range(1, 4)).map(|_| item(rng, t)).collect();
    t.transfers = (0..rng.range(1, 4)).map(|_| transfer(rng, t, &formats)).collect();
}

fn format(rng: &mut Rng, numbered: bool, words: &mut Vec<u32>) {
    let first = words.len();
    let count = rng.range(1, 5);
    let number_at = rng.below(count);
    for index in 0..count {
        let width = *rng.pick(&[1, 1, 2, 3, 5, 9, 79, 80, 132, LARGEST_NUMBER]);
        words.push(match (numbered && index == number_at, rng.below(6)) {
            (true, _) => pack(word::NUMBER, width),
            (_, 0) if numbered => pack(word::NUMBER, width),
            (_, 0..=1) => pack(word::BLANKS, width.min(3)),
            (_, 2..=3) => pack(word::TEXT, u32::from(*rng.pick(b" A0$.=)"))),
            _ => pack(word::SLASH, 0),
        });
    }
    words.push(pack(word::END, rng.range(first, first + count - 1) as u32));
}

fn item(rng: &mut Rng, t: &Tables) -> ItemEntry {
    if !t.elements.is_empty() && rng.chance(30) {
        let first = rng.below(t.elements.len()) as u32;
        return ItemEntry { first, count: 0 };
    }
    let first = rng.below(t.cells as usize);
    let most = (t.cells as usize - first).min(6);
    ItemEntry {
        first: first as u32,
        count: rng.range(1, most) as u32,
    }
}

fn transfer(rng: &mut Rng, t: &Tables, formats: &[(u32, bool)]) -> TransferEntry {
    let (format, numbered) = *rng.pick(formats);
    let first = rng.below(t.items.len() + 1);
    let count = if numbered {
        rng.below(t.items.len() - first + 1)
    } else {
        0
    };
    TransferEntry {
        format,
        first: first as u32,
        count: count as u32,
    }
}

/// Breaks one rule of 42 in the bodies that `fill` made.
pub fn break_entry(rng: &mut Rng, t: &mut Tables) {
    match rng.below(16) {
        0..=9 => break_word(rng, t),
        10..=11 => {
            let at = rng.below(t.items.len());
            t.items[at] = match rng.chance(50) {
                true => ItemEntry {
                    first: super::broken::over(rng, t.elements.len() as u32),
                    count: 0,
                },
                false => ItemEntry {
                    first: t.items[at].first,
                    count: super::broken::over(rng, t.cells + 1),
                },
            };
        }
        _ => break_transfer(rng, t),
    }
}

fn break_word(rng: &mut Rng, t: &mut Tables) {
    let at = rng.below(t.words.len());
    let end = (at..t.words.len()).find(|index| unpack(t.words[*index]).0 == word::END);
    let end = end.unwrap_or(at);
    let over = *rng.pick(&[LARGEST_NUMBER + 1, 1 << 23, 0xFF_FFFF]);
    match rng.below(10) {
        0 => t.words[at] = pack(*rng.pick(&[0, 6, 7, 128, 255]), 1),
        1 => t.words[at] = pack(word::NUMBER, 0),
        2 => t.words[at] = pack(word::NUMBER, over),
        3 => t.words[at] = pack(word::BLANKS, 0),
        4 => t.words[at] = pack(word::BLANKS, over),
        5 => {
            t.words[at] = pack(
                word::TEXT,
                *rng.pick(&[0, 10, 31, 35, 64, 96, 97, 127, 128, 255, 256, 321]),
            )
        }
        6 => t.words[at] = pack(word::SLASH, rng.range(1, 3) as u32),
        7 => drop(t.words.pop()),
        8 => t.words[end] = pack(word::END, (end + *rng.pick(&[0, 1, 100])) as u32),
        // The last FORMAT's end, for it alone has surely another FORMAT before it.
        _ => {
            let last = t.words.len() - 1;
            t.words[last] = pack(word::END, 0);
        }
    }
}

fn break_transfer(rng: &mut Rng, t: &mut Tables) {
    let (words, items) = (t.words.len() as u32, t.items.len() as u32);
    let second = t.words.iter().position(|word| unpack(*word).0 == word::END);
    let second = second.map_or(0, |end| end as u32 + 1);
    let at = rng.below(t.transfers.len());
    let x = &mut t.transfers[at];
    match rng.below(4) {
        0 => x.format = super::broken::over(rng, words),
        1 => x.format = *rng.pick(&[1, second - 1, words - 1]),
        2 => {
            let first = rng.below(items as usize + 2) as u32;
            let count = super::broken::over(rng, (items + 1).saturating_sub(first).max(1));
            (x.format, x.first, x.count) = (0, first, count);
        }
        _ => (x.format, x.first, x.count) = (second, 0, 1),
    }
}

/// One word of one entry of the bodies is put to a value.
pub fn edge(rng: &mut Rng, t: &mut Tables, value: u32) {
    let (words, items, transfers) = (t.words.len(), t.items.len(), t.transfers.len());
    match rng.below(3) {
        0 if words > 0 => {
            let at = rng.below(words);
            let kind = *rng.pick(&[0, 1, 2, 3, 4, 5, 6, unpack(t.words[at]).0]);
            t.words[at] = pack(kind, value);
        }
        1 if items > 0 => {
            let item = &mut t.items[rng.below(items)];
            match rng.below(2) {
                0 => item.first = value,
                _ => item.count = value,
            }
        }
        _ if transfers > 0 => {
            let x = &mut t.transfers[rng.below(transfers)];
            match rng.below(3) {
                0 => x.format = value,
                1 => x.first = value,
                _ => x.count = value,
            }
        }
        _ => {}
    }
}
