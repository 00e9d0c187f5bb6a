//! 15 and 16: what a DIMENSION may declare, and how arrays are used.

use super::forms::{Form, Piece};
use super::text::Text;
use super::{counted, spelled, Columns, Explanation};

/// The arrays that a statement declares, with their counts of dimensions.
fn arrays(text: &Text) -> impl Iterator<Item = (String, usize, &Piece)> + '_ {
    text.names().filter(|_| text.is(Form::Dimension))
}

/// Where a name stands in a text, before so many of its characters.
fn stands(text: &Text, name: &str, before: usize) -> Option<Vec<Columns>> {
    let mut names = text.names().filter(|(_, _, piece)| piece.at.start < before);
    let (_, _, piece) = names.find(|(other, ..)| other == name)?;
    Some(text.at(piece))
}

/// 15: the first array that is wrong.
pub fn dimension(texts: &[Text], index: usize) -> Option<Explanation> {
    let text = texts.get(index)?;
    arrays(text).find_map(|(name, dimensions, piece)| {
        let earlier = texts[..index].iter().find_map(|text| stands(text, &name, usize::MAX));
        if let Some(seen) = earlier.or_else(|| stands(text, &name, piece.at.start)) {
            let words = format!("{name} stands already on card {}", seen.first()?.card);
            let advice = "an array is declared once, before it is used";
            return Some(Explanation::new(text.at(piece), words, advice).with(seen));
        }
        if name.ends_with('F') {
            let words = format!("{name} ends in F, as the names of functions do");
            return Some(Explanation::new(text.at(piece), words, "an array needs another name"));
        }
        let zero = zero(text, piece, dimensions)?;
        let words = format!("{name} has a dimension 0");
        Some(Explanation::new(text.at(zero), words, "dimensions go from 1 on"))
    })
}

/// The dimension of an array that is 0.
fn zero<'t>(text: &'t Text, name: &Piece, dimensions: usize) -> Option<&'t Piece> {
    let after = text.pieces().iter().skip_while(|piece| piece.at.start <= name.at.start);
    after.take(dimensions).find(|piece| text.value(piece) == 0)
}

/// How many dimensions the statements give a name, and where.
fn declared(name: &str, texts: &[Text]) -> Option<(usize, Vec<Columns>)> {
    let mut all = texts
        .iter()
        .flat_map(|text| arrays(text).map(move |array| (text, array)));
    let (text, (_, dimensions, piece)) = all.find(|(_, (other, ..))| other == name)?;
    Some((dimensions, text.at(piece)))
}

/// 16: the first name whose subscripts are not as declared.
pub fn element(texts: &[Text], index: usize) -> Option<Explanation> {
    let text = texts.get(index)?;
    text.names().find_map(|(name, subscripts, piece)| {
        let before = declared(&name, &texts[..index]);
        let dimensions = before.as_ref().map_or(0, |(dimensions, _)| *dimensions);
        if subscripts == dimensions {
            return None;
        }
        let later = declared(&name, &texts[index..]).filter(|_| dimensions == 0);
        let card = later.as_ref().and_then(|(_, at)| at.first()).map(|at| at.card);
        let (words, advice) = misused(&name, subscripts, dimensions, card);
        let also = before.or(later).map_or_else(Vec::new, |(_, at)| at);
        Some(Explanation::new(text.at(piece), words, advice).with(also))
    })
}

/// A name with so many subscripts that has so many dimensions, or has them later, on a card.
fn misused(name: &str, subscripts: usize, dimensions: usize, later: Option<usize>) -> (String, &'static str) {
    match (dimensions, subscripts, later) {
        (0, _, Some(card)) => (
            format!("{name} is used before its DIMENSION on card {card}"),
            "put the DIMENSION first",
        ),
        (0, ..) if name.ends_with('F') && name != "IF" => (format!("{name} is no array"), "functions are not compiled"),
        (0, ..) => (
            format!("{name} is no array"),
            "a DIMENSION before its first use makes it one",
        ),
        (_, 0, _) => (
            format!("{name} is an array"),
            "an element of it has its subscripts in parentheses",
        ),
        _ => (
            format!(
                "{name} has {} here, not {}",
                counted(subscripts, "subscript"),
                spelled(dimensions)
            ),
            "as many as its DIMENSION has",
        ),
    }
}
