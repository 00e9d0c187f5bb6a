//! Decks that are wrong before any statement is read: 1 to 5 and 7, and a deck of no statement.

use super::faults::Faulty;
use super::punch::comment;
use super::{ordinary_deck_at, Made, Rng};
use crate::level::Level;
use crate::limits::{CARDS, CARD_BYTES, STATEMENTS};

pub type Wrong = (&'static str, fn(&mut Rng, &mut Made) -> u32);

/// Each makes a right deck wrong and gives the place.
pub const REASONS: &[Wrong] = &[
    ("1 k 0", |_, made| digits(made, 0)),
    ("1 k over 9", |rng, made| {
        digits(made, *rng.pick(&[10, 11, 100, 256, u32::MAX]))
    }),
    ("2 no byte", |_, made| length(made, 0)),
    ("2 a part of a card", |rng, made| {
        length(made, made.deck.len() - rng.range(1, CARD_BYTES - 1))
    }),
    ("2 a line end", |rng, made| {
        length(made, made.deck.len() + rng.range(1, 2))
    }),
    ("2 over 512 cards", |rng, made| {
        length(made, CARD_BYTES * (CARDS + rng.range(1, 9)))
    }),
    ("3 in columns 1-5", |rng, made| character(rng, made, 0, 5, first)),
    ("3 in column 6", |rng, made| character(rng, made, 5, 6, any)),
    ("3 in columns 7-72", |rng, made| character(rng, made, 6, 72, any)),
    ("3 in column 72", |rng, made| character(rng, made, 71, 72, any)),
    ("4 no digit", |rng, made| spoil(rng, made, 5, b"ABDIZ.)+$*-/,(=", first)),
    ("4 a number 0", zero),
    ("4 on a continuation", |rng, made| continued(rng, made, 1, true)),
    ("4 on the tenth continuation", |rng, made| {
        continued(rng, made, 10, true)
    }),
    ("4 on an orphan", |rng, made| orphan(rng, made, true)),
    ("5 the tenth continuation", |rng, made| continued(rng, made, 10, false)),
    ("5 an orphan", |rng, made| orphan(rng, made, false)),
    ("7", statements),
    ("20 no statement at all", comments_only),
];

pub fn faulty(level: Level, rng: &mut Rng, (reason, wrong): &Wrong) -> Faulty {
    let mut made = ordinary_deck_at(level, rng);
    let place = wrong(rng, &mut made);
    Faulty {
        reason: reason.to_string(),
        place,
        made,
    }
}

fn digits(made: &mut Made, k: u32) -> u32 {
    made.k = k;
    0
}

fn length(made: &mut Made, bytes: usize) -> u32 {
    made.deck.resize(bytes, b'\n');
    0
}

fn any(_: &[u8]) -> bool {
    true
}

fn first(card: &[u8]) -> bool {
    matches!(card[5], b' ' | b'0')
}

/// The index of some card that is no comment and is of a sort; the first card is of every sort.
fn pick_card(rng: &mut Rng, made: &Made, sort: fn(&[u8]) -> bool) -> usize {
    let cards: Vec<usize> = made
        .deck
        .chunks_exact(CARD_BYTES)
        .enumerate()
        .filter(|(_, card)| card[0] != b'C' && sort(card))
        .map(|(index, _)| index)
        .collect();
    *rng.pick(&cards)
}

/// A byte that no card may hold, in one of the columns.
fn character(rng: &mut Rng, made: &mut Made, from: usize, to: usize, sort: fn(&[u8]) -> bool) -> u32 {
    let card = pick_card(rng, made, sort);
    let byte = *rng.pick(b"abiz?'\"#@&%;:<>!_^~\t\n\r\0\x7f\x80\xa0\xff[]{}|\\`");
    made.deck[card * CARD_BYTES + rng.range(from, to - 1)] = byte;
    card as u32 + 1
}

/// A character in columns 1-5 that is no digit.
fn spoil(rng: &mut Rng, made: &mut Made, to: usize, set: &[u8], sort: fn(&[u8]) -> bool) -> u32 {
    let card = pick_card(rng, made, sort);
    let column = rng.below(to);
    let set = if column == 0 { set } else { b"CAZ.)+$*-/,(=" };
    made.deck[card * CARD_BYTES + column] = *rng.pick(set);
    card as u32 + 1
}

fn zero(rng: &mut Rng, made: &mut Made) -> u32 {
    let card = pick_card(rng, made, first);
    let columns = *rng.pick(&["0    ", "00000", "    0", " 0 0 "]);
    made.deck[card * CARD_BYTES..][..5].copy_from_slice(columns.as_bytes());
    card as u32 + 1
}

/// A continuation, of blanks but for column 6, and with something in columns 1-5 if it is to be 4.
fn continuation(rng: &mut Rng, spoilt: bool) -> Vec<u8> {
    let mut card = vec![b' '; CARD_BYTES];
    card[5] = *rng.pick(b"123456789ACXZ.$=(");
    if spoilt {
        card[rng.below(5)] = *rng.pick(b"0123456789AXZ.$=(");
    }
    card
}

/// So many continuations in all after the cards of END, comments among them, the last one wrong.
fn continued(rng: &mut Rng, made: &mut Made, count: usize, spoilt: bool) -> u32 {
    let there = trailing(&made.deck);
    for index in there.min(count - 1)..count {
        if rng.chance(10) {
            made.deck.extend(comment(rng));
        }
        made.deck.extend(continuation(rng, spoilt && index + 1 == count));
    }
    (made.deck.len() / CARD_BYTES) as u32
}

/// The continuations that the last statement has.
fn trailing(deck: &[u8]) -> usize {
    deck.chunks_exact(CARD_BYTES)
        .rev()
        .filter(|card| card[0] != b'C')
        .take_while(|card| !first(card))
        .count()
}

/// A continuation before the first statement, after some comments or none.
fn orphan(rng: &mut Rng, made: &mut Made, spoilt: bool) -> u32 {
    let comments = *rng.pick(&[0, 0, 1, 3]);
    let mut deck: Vec<u8> = (0..comments).flat_map(|_| comment(rng)).collect();
    deck.extend(continuation(rng, spoilt));
    deck.append(&mut made.deck);
    made.deck = deck;
    comments + 1
}

/// Over 400 statements, the first of which may be wrong.
fn statements(rng: &mut Rng, made: &mut Made) -> u32 {
    let count = *rng.pick(&[STATEMENTS + 1, STATEMENTS + 1, STATEMENTS + 2, CARDS]);
    let card = |text: &str| format!("{text:80}").into_bytes();
    let front = *rng.pick(&["      A=1", "      CONTINUE", "", "      END"]);
    made.deck = card(front);
    (2..count).for_each(|_| made.deck.extend(card("      CONTINUE")));
    made.deck.extend(card("      END"));
    0
}

fn comments_only(rng: &mut Rng, made: &mut Made) -> u32 {
    made.deck = (0..rng.range(1, 5)).flat_map(|_| comment(rng)).collect();
    0
}
