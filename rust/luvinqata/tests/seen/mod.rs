//! What a compiled deck has that tests must have met often.

use independent::cards::{Sequence, StatementNumber};
use independent::compile::{Deck, Statement};
use independent::limits::*;
use independent::object::Tables;
use independent::reader::Form;

pub const SHORT_MAP: &str = "the map's 30";

pub const FEATURES: [&str; 19] = [
    "a jump to a DO from outside its range",
    "a jump from inside a range to its DO",
    "a last statement shared by DOs",
    "an array with rows other than columns",
    "a name of six characters",
    "bytes in columns 73-80",
    "a comment between the cards of a statement",
    SHORT_MAP,
    "400 statements",
    "512 cards",
    "100 names",
    "64 DOs",
    "8 DOs deep",
    "256 constants",
    "256 elements",
    "1,024 exit words",
    "4,096 code words",
    "4,096 cells",
    "16 parentheses deep",
];

/// All of the above that a deck has, but for the map's.
pub fn features(bytes: &[u8], deck: &Deck, tables: &Tables) -> Vec<&'static str> {
    let ranges = ranges(deck);
    let jumps = jumps(deck);
    let to_do = |from: &Sequence, to: &Sequence| ranges.iter().find(|(first, _)| first == to).map(|r| holds(r, from));
    let shared = |index: usize| ranges[..index].iter().any(|(_, last)| *last == ranges[index].1);
    let deepest = |n: &Sequence| ranges.iter().filter(|range| holds(range, n)).count();
    let levels = deck.levels();
    let has = [
        jumps.iter().any(|(from, to)| to_do(from, to) == Some(false)),
        jumps.iter().any(|(from, to)| to_do(from, to) == Some(true)),
        (0..ranges.len()).any(shared),
        tables
            .names
            .iter()
            .any(|name| name.columns > 0 && name.rows != name.columns),
        tables.names.iter().any(|name| name.text().len() == 6),
        bytes
            .chunks(CARD_BYTES)
            .any(|card| card[0] != b'C' && card[72..].iter().any(|c| *c != b' ')),
        comment_inside(bytes),
        false,
        deck.statements().len() == STATEMENTS,
        bytes.len() == CARDS * CARD_BYTES,
        tables.names.len() == NAMES,
        tables.dos.len() == DOS,
        deck.statements().iter().any(|s| deepest(&s.sequence) == DO_DEPTH),
        tables.constants.len() == CONSTANTS,
        tables.elements.len() == ELEMENTS,
        tables.exits.len() == EXITS,
        tables.code.len() == CODE,
        tables.cells as usize == CELLS,
        levels == PARENTHESES,
    ];
    FEATURES
        .iter()
        .zip(has)
        .filter(|(_, has)| *has)
        .map(|(feature, _)| *feature)
        .collect()
}

/// A DO and its last statement.
type Range = (Sequence, Sequence);

fn holds(range: &Range, sequence: &Sequence) -> bool {
    range.0 < *sequence && *sequence <= range.1
}

fn numbered(deck: &Deck, number: StatementNumber) -> Sequence {
    let defined = |s: &&Statement| s.number == Some(number);
    deck.statements()
        .iter()
        .find(defined)
        .expect("a number used is defined")
        .sequence
}

fn ranges(deck: &Deck) -> Vec<Range> {
    let range = |s: &Statement| match &s.form {
        Form::Do(parts) => Some((s.sequence, numbered(deck, parts.last))),
        _ => None,
    };
    deck.statements().iter().filter_map(range).collect()
}

/// Every jump's two ends.
fn jumps(deck: &Deck) -> Vec<(Sequence, Sequence)> {
    let mut jumps = Vec::new();
    for statement in deck.statements() {
        let targets = match &statement.form {
            Form::GoTo(number) => vec![*number],
            Form::Computed { exits, .. } => exits.clone(),
            Form::If { exits, .. } => exits.to_vec(),
            _ => Vec::new(),
        };
        jumps.extend(targets.into_iter().map(|to| (statement.sequence, numbered(deck, to))));
    }
    jumps
}

fn comment_inside(bytes: &[u8]) -> bool {
    let cards: Vec<&[u8]> = bytes.chunks(CARD_BYTES).collect();
    let continues = |card: &[u8]| card[0] != b'C' && !matches!(card[5], b' ' | b'0');
    cards.windows(2).any(|pair| pair[0][0] == b'C' && continues(pair[1]))
}
