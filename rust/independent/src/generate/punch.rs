//! Lines of text punched on cards.

use super::source::Line;
use super::Rng;
use crate::limits::CARD_BYTES;

/// The text columns of a card.
const TEXT: usize = 66;

/// What is done to a deck that changes nothing in its meaning.
#[derive(Clone, Copy, Default)]
pub struct Style {
    /// Blanks here and there, `$` for some `*`.
    blanks: bool,
    comments: bool,
    /// Fewer columns used than there are.
    short: bool,
}

impl Style {
    pub fn any(rng: &mut Rng) -> Style {
        Style {
            blanks: rng.chance(30),
            comments: rng.chance(30),
            short: rng.chance(20),
        }
    }

    /// For decks with no card to spare.
    pub fn sparing(rng: &mut Rng) -> Style {
        Style {
            comments: rng.chance(30),
            ..Style::default()
        }
    }
}

/// A deck of the lines, with continuations, column 6 and bytes in 73-80 as they come.
pub fn punch(rng: &mut Rng, lines: &[Line], style: Style) -> Vec<u8> {
    let Style {
        blanks,
        comments,
        short,
    } = style;
    let mut deck = Vec::new();
    for line in lines {
        if comments && rng.chance(20) {
            deck.extend(comment(rng));
        }
        // In a FORMAT every column may count.
        let as_it_is = line.text.starts_with("FORMAT(");
        let text = if blanks && !as_it_is {
            spread(rng, &line.text)
        } else {
            line.text.clone().into_bytes()
        };
        let least = text.len() / 9 + 1;
        let room = if short && least < TEXT && !as_it_is {
            rng.range(least, TEXT)
        } else {
            TEXT
        };
        for (index, part) in parts(&text, room).enumerate() {
            deck.extend(card(rng, line.number, index, part));
            if comments && rng.chance(10) {
                deck.extend(comment(rng));
            }
        }
    }
    deck
}

fn parts(text: &[u8], room: usize) -> impl Iterator<Item = &[u8]> {
    let empty = text.is_empty().then_some(text);
    text.chunks(room).chain(empty)
}

/// Blanks between the characters, and `$` for some `*`.
fn spread(rng: &mut Rng, text: &str) -> Vec<u8> {
    let mut spread = Vec::new();
    for c in text.bytes() {
        if text.len() < 200 && rng.chance(20) {
            spread.extend(vec![b' '; rng.range(1, 3)]);
        }
        spread.push(if c == b'*' && rng.chance(30) { b'$' } else { c });
    }
    spread
}

pub(super) fn comment(rng: &mut Rng) -> Vec<u8> {
    let mut card: Vec<u8> = (0..CARD_BYTES).map(|_| rng.below(256) as u8).collect();
    card[0] = b'C';
    card
}

fn card(rng: &mut Rng, number: Option<u32>, index: usize, text: &[u8]) -> Vec<u8> {
    let mut card = vec![b' '; CARD_BYTES];
    if index == 0 {
        if let Some(number) = number {
            card[..5].copy_from_slice(&columns(rng, number));
        }
        card[5] = *rng.pick(b"  0");
    } else {
        card[5] = *rng.pick(b"123456789XC$.=");
    }
    card[6..6 + text.len()].copy_from_slice(text);
    if rng.chance(10) {
        card[72..].iter_mut().for_each(|c| *c = rng.below(256) as u8);
    }
    card
}

/// A number in five columns: to the left, to the right, with zeros, or with a blank in it.
fn columns(rng: &mut Rng, number: u32) -> [u8; 5] {
    let text = match rng.below(4) {
        0 => format!("{number:<5}"),
        1 => format!("{number:>5}"),
        2 => format!("{number:05}"),
        _ => format!("{number:<4} "),
    };
    let mut columns = [b' '; 5];
    columns.copy_from_slice(&text.as_bytes()[..5]);
    if columns[4] == b' ' {
        let blank = rng.below(5);
        columns[blank..].rotate_right(1);
    }
    columns
}
