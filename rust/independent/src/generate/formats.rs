//! FORMATs as they are punched, and cards to be read.

use super::Rng;
use crate::limits::CARD_BYTES;

/// What H fields are made of.
const CHARACTERS: &[u8] = b"ABHIX019 .)+$*-/,(=";
/// A statement's cards have room for no more.
const LONGEST: usize = 600;

/// A FORMAT, with an I if it is to have one; outside H fields blanks here and there.
pub fn format(rng: &mut Rng, numbered: bool) -> String {
    let list = list(rng, 2, numbered);
    if list.len() > LONGEST {
        return "FORMAT(2(I3,1X))".to_string();
    }
    format!("FORMAT({list})")
}

fn list(rng: &mut Rng, depth: usize, numbered: bool) -> String {
    if !numbered && rng.chance(10) {
        return slashes(rng);
    }
    let count = rng.range(1, 4);
    let number_at = rng.below(count);
    let mut text = if rng.chance(10) { slashes(rng) } else { String::new() };
    for index in 0..count {
        if index > 0 {
            text += gap(rng);
            text += &if rng.chance(20) { slashes(rng) } else { ",".to_string() };
        }
        text += gap(rng);
        text += &match numbered && index == number_at {
            true => number(rng),
            false => field(rng, depth),
        };
    }
    if rng.chance(10) {
        text += &slashes(rng);
    }
    text
}

fn field(rng: &mut Rng, depth: usize) -> String {
    match rng.below(10) {
        0..=3 => number(rng),
        4..=5 => format!("{}{}X", columns(rng), gap(rng)),
        6..=7 => {
            let length = *rng.pick(&[1, 1, 2, 3, 5, 8, 40]);
            let text: String = (0..length).map(|_| char::from(*rng.pick(CHARACTERS))).collect();
            format!("{length}{}H{text}", gap(rng))
        }
        _ if depth > 0 => {
            let numbered = rng.chance(70);
            format!("{}({})", repeat(rng), list(rng, depth - 1, numbered))
        }
        _ => number(rng),
    }
}

fn number(rng: &mut Rng) -> String {
    let width = match rng.below(60) {
        0 => rng.range(70, 90),
        1 => rng.range(125, 140),
        2 => 99_999,
        3..=5 => rng.range(7, 20),
        _ => rng.range(1, 6),
    };
    let zeros = if rng.chance(5) { "00" } else { "" };
    format!("{}{}I{}{zeros}{width}", repeat(rng), gap(rng), gap(rng))
}

fn columns(rng: &mut Rng) -> usize {
    match rng.below(20) {
        0 => rng.range(70, 90),
        1 => rng.range(125, 140),
        _ => rng.range(1, 4),
    }
}

fn repeat(rng: &mut Rng) -> String {
    if rng.chance(60) {
        return String::new();
    }
    rng.range(1, 4).to_string()
}

fn slashes(rng: &mut Rng) -> String {
    "/".repeat(*rng.pick(&[1, 1, 1, 2, 3]))
}

fn gap(rng: &mut Rng) -> &'static str {
    if rng.chance(5) {
        " "
    } else {
        ""
    }
}

/// Up to nine cards and now and then a part of one, most of them readable at most widths.
pub fn cards(rng: &mut Rng) -> Vec<u8> {
    let count = rng.below(10);
    let mut cards: Vec<u8> = (0..count).flat_map(|_| card(rng)).collect();
    if rng.chance(20) {
        cards.extend(vec![b'1'; rng.range(1, CARD_BYTES - 1)]);
    }
    cards
}

fn card(rng: &mut Rng) -> Vec<u8> {
    let characters: &[u8] = match rng.below(20) {
        0..=6 => b"0",
        7..=10 => b"0123456789",
        11..=13 => b" ",
        14..=17 => b"00000001",
        18 => b"00000000000 +-@",
        _ => b" 019+-@.A\x00\xFF",
    };
    let mut card: Vec<u8> = (0..CARD_BYTES).map(|_| *rng.pick(characters)).collect();
    for _ in 0..rng.below(3) {
        let at = rng.below(6);
        card[at] = *rng.pick(b"019 +-@");
    }
    card
}
