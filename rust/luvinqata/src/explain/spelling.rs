//! 11 to 14: names, constants and numbers as they are written, and parentheses.

use super::forms::{Form, Part, Piece};
use super::text::Text;
use super::{spelled, Explanation};

const NAME: usize = 6;
const LARGEST_NUMBER: u32 = 99_999;
const DEEPEST: usize = 16;
const MOST_DIGITS: usize = 9;

/// 11
pub fn name(text: &Text) -> Option<Explanation> {
    let wrong = |name: &str| name.len() > NAME || !name.starts_with(['I', 'J', 'K', 'L', 'M', 'N']);
    let (name, _, piece) = text.names().find(|(name, ..)| wrong(name))?;
    let at = text.at(piece);
    if looks_like_do(text, piece, &name) {
        let words = format!("without a comma this is an assignment to {name}");
        return Some(Explanation::new(
            at,
            words,
            "a DO has a first value and a limit, as DO 10 I=1,5",
        ));
    }
    if name.len() > NAME {
        let words = format!("{name} has {} characters", spelled(name.len()));
        return Some(Explanation::new(at, words, "a name has six at most"));
    }
    let words = format!("{name} begins with {}", &name[..1]);
    let advice = "a whole number's name begins with I, J, K, L, M or N, and floating-point decks are not compiled";
    Some(Explanation::new(at, words, advice))
}

/// `DO10I=1`
fn looks_like_do(text: &Text, piece: &Piece, name: &str) -> bool {
    let after = name.strip_prefix("DO").unwrap_or_default();
    let variable = after.trim_start_matches(|c: char| c.is_ascii_digit());
    text.is(Form::Assignment) && piece.at.start == 0 && variable.len() < after.len() && !variable.is_empty()
}

/// 12: of more digits than the deck is compiled for, which the longest constant has for sure.
pub fn constant(texts: &[Text], text: &Text) -> Option<Explanation> {
    let own = longest(text)?;
    let (digits, at) = (own.len(), text.at(own));
    let mut words = format!("{} has {} digits", text.written(own), spelled(digits));
    if digits > MOST_DIGITS {
        return Some(Explanation::new(
            at,
            words,
            "a number has nine at most, zeros at its front counted",
        ));
    }
    // What the deck's other constants need, so that one is not sent from one to the next.
    let others = texts.iter().filter_map(|text| Some((text, longest(text)?)));
    let others = others.filter(|(_, piece)| (digits + 1..=MOST_DIGITS).contains(&piece.len()));
    let most = others.max_by_key(|(_, piece)| piece.len());
    if let Some((other, piece)) = &most {
        words += &format!(
            ", {} on card {} {}",
            other.written(piece),
            other.after(piece.at.start).card,
            spelled(piece.len())
        );
    }
    let enough = most.as_ref().map_or(digits, |(_, piece)| piece.len());
    let also = most.map_or_else(Vec::new, |(other, piece)| other.at(piece));
    Some(Explanation::new(at, words, format!("--digits {enough}")).with(also))
}

fn longest(text: &Text) -> Option<&Piece> {
    let constants = text
        .pieces()
        .iter()
        .filter(|piece| matches!(piece.part, Part::Constant { .. }));
    // The first of the longest.
    constants.rev().max_by_key(|piece| piece.len())
}

/// 13
pub fn number(text: &Text) -> Option<Explanation> {
    let (_, piece) = text
        .numbers()
        .find(|(number, _)| !(1..=LARGEST_NUMBER).contains(number))?;
    let words = format!("{} is no statement number", text.written(piece));
    Some(Explanation::new(text.at(piece), words, "they go from 1 to 99999"))
}

/// 14
pub fn parentheses(text: &Text) -> Option<Explanation> {
    let too_deep = |piece: &&Piece| matches!(piece.part, Part::Parenthesis { depth } if depth > DEEPEST);
    let piece = text.pieces().iter().find(too_deep)?;
    let words = "this is the seventeenth parenthesis open at once";
    let advice = "sixteen at most; work out a part of it in a statement before";
    Some(Explanation::new(text.at(piece), words, advice))
}
