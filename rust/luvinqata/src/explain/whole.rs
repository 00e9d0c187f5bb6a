//! 20 to 25: the deck as a whole.

use super::forms::{Form, Piece};
use super::text::Text;
use super::{counted, Columns, Explanation};

const DEEPEST: usize = 8;
const LAST_AFTER: &str = "a DO's last statement comes after the DO";

/// 20, of a deck of comments.
pub fn no_statement() -> Explanation {
    Explanation::new([], "the deck has no statement, only comments", "it ends with END")
}

/// 20
pub fn end(texts: &[Text], index: usize) -> Option<Explanation> {
    let text = texts.get(index)?;
    let (words, advice) = match text.is(Form::End) {
        true => (
            "END stands here, and statements come after it",
            "it stands last, and STOP ends a run elsewhere",
        ),
        false => ("the last statement is not END", "put END after it"),
    };
    Some(Explanation::new(text.whole(), words, advice))
}

/// 21
pub fn defined_twice(texts: &[Text], index: usize) -> Option<Explanation> {
    let text = texts.get(index)?;
    let (number, at) = text.number?;
    for (form, name) in [(Form::Dimension, "a DIMENSION"), (Form::End, "an END")] {
        if text.is(form) {
            let words = format!("{name} has the statement number {number}");
            return Some(Explanation::new([at], words, "it may have none; put it on a CONTINUE"));
        }
    }
    let first = texts[..index]
        .iter()
        .filter_map(|text| text.number)
        .find(|(other, _)| *other == number);
    let (_, first) = first?;
    let words = format!("the statement number {number} stands on card {} too", first.card);
    Some(Explanation::new([at], words, "give one of the two another number").with(vec![first]))
}

/// 22
pub fn undefined(texts: &[Text], index: usize) -> Option<Explanation> {
    let text = texts.get(index)?;
    let (number, piece) = text.numbers().find(|(number, _)| numbered(texts, *number).is_none())?;
    let words = format!("no statement has the number {number}");
    let advice = "it stands in columns 1 to 5 of the statement to go to";
    Some(Explanation::new(text.at(piece), words, advice))
}

/// A DO and its last statement, as indexes.
struct Range {
    first: usize,
    last: usize,
}

impl Range {
    fn holds(&self, index: usize) -> bool {
        self.first < index && index <= self.last
    }
}

fn numbered(texts: &[Text], number: u32) -> Option<usize> {
    texts
        .iter()
        .position(|text| text.number.is_some_and(|(other, _)| other == number))
}

fn ranges(texts: &[Text]) -> Vec<Range> {
    let range = |(first, text): (usize, &Text)| {
        let (number, _) = text.numbers().next().filter(|_| text.is(Form::Do))?;
        let last = numbered(texts, number)?;
        Some(Range { first, last })
    };
    texts.iter().enumerate().filter_map(range).collect()
}

/// 23
pub fn range(texts: &[Text], index: usize) -> Option<Explanation> {
    let text = texts.get(index)?;
    let (number, piece) = text.numbers().next()?;
    let last = numbered(texts, number)?;
    let at = text.at(piece);
    if last == index {
        let words = format!("this DO is itself statement {number}, which ends it");
        return Some(Explanation::new(at, words, LAST_AFTER));
    }
    if last < index {
        let card = texts[last].card();
        let words = format!("statement {number}, which ends this DO, stands on card {card}, not after it");
        return Some(Explanation::new(at, words, LAST_AFTER).with(place(&texts[last])));
    }
    if let Some(name) = no_end(&texts[last]) {
        let words = format!("statement {number}, which ends this DO, is {name}");
        let advice = "end the DO with a CONTINUE after it";
        return Some(Explanation::new(at, words, advice).with(place(&texts[last])));
    }
    crossing(texts, index, last, at)
}

/// What a last statement may not be.
fn no_end(text: &Text) -> Option<&'static str> {
    match text.read.as_ref().ok()?.form {
        Form::GoTo | Form::Computed => Some("a GO TO"),
        Form::If => Some("an IF"),
        Form::Do => Some("a DO"),
        Form::Stop => Some("STOP"),
        _ => None,
    }
}

/// A DO in the ranges of others.
fn crossing(texts: &[Text], index: usize, last: usize, at: Vec<Columns>) -> Option<Explanation> {
    let ranges = ranges(texts);
    let around: Vec<&Range> = ranges.iter().filter(|range| range.holds(index)).collect();
    if let Some(crossed) = around.iter().find(|range| range.last < last) {
        let card = texts[crossed.first].card();
        let words = format!("this DO ends after the DO of card {card}, in whose range it begins");
        let advice = "an inner DO ends with the outer one or before it";
        return Some(Explanation::new(at, words, advice).with(place(&texts[crossed.first])));
    }
    let words = format!("this DO has {} around it", counted(around.len(), "DO"));
    (around.len() >= DEEPEST).then(|| Explanation::new(at, words, "DOs go eight deep at most"))
}

/// Where a statement stands: its text, or its number.
fn place(text: &Text) -> Vec<Columns> {
    match (text.whole(), text.number) {
        (columns, Some((_, number))) if columns.is_empty() => vec![number],
        (columns, _) => columns,
    }
}

/// 24
pub fn jump(texts: &[Text], index: usize) -> Option<Explanation> {
    let text = texts.get(index)?;
    let ranges = ranges(texts);
    let entered = |number: u32| {
        let target = numbered(texts, number)?;
        ranges.iter().find(|range| range.holds(target) && !range.holds(index))
    };
    let into = |(number, piece)| Some((number, piece, entered(number)?));
    let (number, piece, range): (u32, &Piece, &Range) = text.numbers().find_map(into)?;
    let card = texts[range.first].card();
    let words = format!("statement {number} stands in the range of the DO of card {card}, and this jump does not");
    let advice = "jump to the DO itself: its range is entered by it only";
    Some(Explanation::new(text.at(piece), words, advice).with(place(&texts[range.first])))
}

/// 25
pub fn variable(texts: &[Text], index: usize) -> Option<Explanation> {
    let text = texts.get(index)?;
    let (set, subscripts, piece) = text.names().next()?;
    let same = |range: &&Range| {
        let variable = texts[range.first].names().next();
        range.holds(index) && variable.is_some_and(|(name, ..)| name == set)
    };
    let ranges = ranges(texts);
    let range = ranges.iter().find(same).filter(|_| subscripts == 0)?;
    let card = texts[range.first].card();
    let words = format!("{set} is the variable of the DO of card {card}, and this stands in its range");
    let advice = "use another name here";
    Some(Explanation::new(text.at(piece), words, advice).with(place(&texts[range.first])))
}
