//! Cards (01 "Cards"): refusals 1 to 7, the statements' texts and numbers.

use crate::level::Level;
use crate::limits::{CARDS, CARD_BYTES, CONTINUATIONS, STATEMENTS};
use crate::number::digits_right;
use crate::refusal::Refusal;

/// A number punched in columns 1-5 or written in a statement's text.
#[derive(Clone, Copy, Debug, PartialEq, Eq, PartialOrd, Ord)]
pub struct StatementNumber(pub u32);

/// "Statements take sequence numbers 1, 2, 3.. in card order."
#[derive(Clone, Copy, Debug, PartialEq, Eq, PartialOrd, Ord)]
pub struct Sequence(pub u32);

/// A statement as it stands on its cards, blanks gone and `$` read as `*`.
#[derive(Clone, Debug, PartialEq, Eq)]
pub struct Punched {
    pub sequence: Sequence,
    pub number: Option<StatementNumber>,
    pub text: Vec<u8>,
    /// Columns 7-72 as they are, for a FORMAT; none in the base.
    pub columns: Vec<u8>,
}

/// The statements of a deck: "Order: 1, 2; card by card 3-5; 7".
pub fn read_cards(level: Level, k: u32, deck: &[u8]) -> Result<Vec<Punched>, Refusal> {
    if !digits_right(k) {
        return Err(Refusal::whole(1));
    }
    if deck.is_empty() || deck.len() % CARD_BYTES != 0 || deck.len() > CARDS * CARD_BYTES {
        return Err(Refusal::whole(2));
    }
    let statements = collect(level, deck)?;
    if statements.len() > STATEMENTS {
        return Err(Refusal::whole(7));
    }
    Ok(statements)
}

/// Goes over the cards once, giving 3, 4 and 5 at the card, comments counted.
fn collect(level: Level, deck: &[u8]) -> Result<Vec<Punched>, Refusal> {
    let mut statements: Vec<Punched> = Vec::new();
    let mut continuations = 0;
    for (index, card) in deck.chunks_exact(CARD_BYTES).enumerate() {
        let refuse = |number| Refusal::at(number, index as u32 + 1);
        if is_comment(card) {
            continue;
        }
        if !card[..72].iter().all(|&c| is_allowed(c)) {
            return Err(refuse(3));
        }
        if starts_statement(card) {
            let number = punched_number(&card[..5]).map_err(|()| refuse(4))?;
            continuations = 0;
            let sequence = Sequence(statements.len() as u32 + 1);
            statements.push(Punched {
                sequence,
                number,
                text: Vec::new(),
                columns: Vec::new(),
            });
        } else {
            // "and then columns 1-5 are blank", before "tenth or orphan continuation".
            if card[..5].iter().any(|&c| c != b' ') {
                return Err(refuse(4));
            }
            continuations += 1;
            if statements.is_empty() || continuations > CONTINUATIONS {
                return Err(refuse(5));
            }
        }
        if let Some(statement) = statements.last_mut() {
            statement.text.extend(text_of(card));
            if level >= Level::Cards {
                statement.columns.extend(&card[6..72]);
            }
        }
    }
    Ok(statements)
}

/// "`C` in column 1: a comment, removed first, any bytes."
fn is_comment(card: &[u8]) -> bool {
    card[0] == b'C'
}

/// "columns 1-72 hold blank, A-Z, 0-9 or `. ) + $ * - / , ( =`".
pub fn is_allowed(c: u8) -> bool {
    c == b' ' || c.is_ascii_uppercase() || c.is_ascii_digit() || b".)+$*-/,(=".contains(&c)
}

/// "Column 6 blank or `0` starts a statement; any other character continues it".
fn starts_statement(card: &[u8]) -> bool {
    card[5] == b' ' || card[5] == b'0'
}

/// "blanks, or digits with blanks anywhere, giving a statement number 1 to 99999".
fn punched_number(columns: &[u8]) -> Result<Option<StatementNumber>, ()> {
    let digits: Vec<u8> = columns.iter().copied().filter(|&c| c != b' ').collect();
    if digits.is_empty() {
        return Ok(None);
    }
    if !digits.iter().all(u8::is_ascii_digit) {
        return Err(());
    }
    let value = digits.iter().fold(0, |sum, d| sum * 10 + u32::from(d - b'0'));
    if value == 0 {
        return Err(());
    }
    Ok(Some(StatementNumber(value)))
}

/// "Blanks in 7-72 vanish. `$` reads as `*`".
fn text_of(card: &[u8]) -> impl Iterator<Item = u8> + '_ {
    card[6..72]
        .iter()
        .filter(|&&c| c != b' ')
        .map(|&c| if c == b'$' { b'*' } else { c })
}
