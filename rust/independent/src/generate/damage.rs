//! Damage to a deck, in its texts and on its cards.

use super::source::Line;
use super::Rng;
use crate::limits::CARD_BYTES;

const CHARACTERS: &[u8] = b"ABCDEFGHIJKLMNOPQRSTUVWXYZ0123456789.)+$*-/,(=";
/// The characters that most change what a text means.
const TELLING: &[u8] = b"()(),=+-*/$0123456789IJLCDF.";

/// Changes one thing in the lines.
pub fn misspell(rng: &mut Rng, lines: &mut Vec<Line>) {
    let index = rng.below(lines.len());
    let other = rng.below(lines.len());
    match rng.below(10) {
        0..=4 => change_text(rng, &mut lines[index].text),
        5 => drop(lines.remove(index)),
        6 => lines.insert(other, lines[index].clone()),
        7 => lines.swap(index, other),
        8 => lines[index].number = if rng.chance(50) { None } else { lines[other].number },
        _ => lines[index].text.clear(),
    }
    if lines.is_empty() {
        lines.push(Line {
            number: None,
            text: "END".to_string(),
        });
    }
}

fn change_text(rng: &mut Rng, text: &mut String) {
    let mut bytes = std::mem::take(text).into_bytes();
    let set = if rng.chance(70) { TELLING } else { CHARACTERS };
    let at = rng.below(bytes.len().max(1));
    match rng.below(4) {
        0 if !bytes.is_empty() => drop(bytes.remove(at)),
        1 if !bytes.is_empty() => bytes[at] = *rng.pick(set),
        2 => {
            let part: Vec<u8> = bytes[at.min(bytes.len())..]
                .iter()
                .copied()
                .take(rng.range(1, 6))
                .collect();
            let to = rng.below(bytes.len() + 1);
            bytes.splice(to..to, part);
        }
        _ => bytes.insert(at, *rng.pick(set)),
    }
    *text = bytes.into_iter().map(char::from).collect();
}

/// A deck with bytes changed, cards lost, doubled or moved, or its length wrong.
pub fn damaged_deck(rng: &mut Rng, deck: &[u8]) -> Vec<u8> {
    let mut deck = deck.to_vec();
    for _ in 0..rng.range(1, 2) {
        damage_once(rng, &mut deck);
    }
    deck
}

fn damage_once(rng: &mut Rng, deck: &mut Vec<u8>) {
    let cards = deck.len() / CARD_BYTES;
    if cards == 0 {
        deck.push(b' ');
        return;
    }
    let card = rng.below(cards) * CARD_BYTES;
    match rng.below(12) {
        0 => deck[card + rng.below(CARD_BYTES)] = rng.below(256) as u8,
        1..=3 => deck[card + rng.below(40)] = *rng.pick(CHARACTERS),
        4 => deck[card + 5] = *rng.pick(b" 01X$"),
        5 => deck[card + rng.below(5)] = *rng.pick(b"0123456789C$"),
        6 => drop(deck.drain(card..card + CARD_BYTES)),
        7 => {
            let copy = deck[card..card + CARD_BYTES].to_vec();
            deck.extend(copy);
        }
        8 => {
            let other = rng.below(cards) * CARD_BYTES;
            (0..CARD_BYTES).for_each(|c| deck.swap(card + c, other + c));
        }
        9 => deck.truncate(deck.len() - rng.range(1, CARD_BYTES)),
        10 => deck.extend(vec![b'\n'; rng.range(1, 2)]),
        _ => deck[card..card + 72].fill(b' '),
    }
}
