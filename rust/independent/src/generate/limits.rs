//! Programs just under, at or just over each limit.

use super::faults::line_of;
use super::source::Line;
use super::Rng;
use crate::limits::*;

/// Texts that take a table to a given size.
type Kind = fn(&mut Rng, usize) -> Vec<String>;

/// A program at a limit.
pub struct AtLimit {
    pub k: u32,
    pub lines: Vec<Line>,
    /// The number it is refused by, if it is over the limit.
    pub refusal: Option<u32>,
}

/// A program at its limit three times of seven.
pub fn program(rng: &mut Rng) -> AtLimit {
    let kinds: [(usize, u32, Kind); 14] = [
        (STATEMENTS, 7, statements),
        (NAMES, 18, names),
        (DOS, 18, dos),
        (DO_DEPTH, 23, nested),
        (CONSTANTS, 18, constants),
        (ELEMENTS, 18, elements),
        (EXITS, 18, exits),
        (EXITS, 18, chosen_exits),
        (CODE, 18, code),
        (CODE, 18, code_by_dos),
        (CELLS, 18, cells),
        (PARENTHESES, 14, parentheses),
        (LARGEST_NUMBER as usize, 13, number),
        (CARDS, 2, cards),
    ];
    let (limit, refusal, kind) = *rng.pick(&kinds);
    let size = *rng.pick(&[limit - 2, limit - 1, limit, limit, limit, limit + 1, limit + 2]);
    let mut texts = kind(rng, size);
    texts.push("END".to_string());
    let lines = texts.iter().map(|text| line_of(text)).collect();
    AtLimit {
        k: 5,
        lines,
        refusal: (size > limit).then_some(refusal),
    }
}

fn statements(rng: &mut Rng, most: usize) -> Vec<String> {
    let text = if rng.chance(50) { "CONTINUE" } else { "I=I+1" };
    vec![text.to_string(); most - 1]
}

fn names(rng: &mut Rng, most: usize) -> Vec<String> {
    let mut texts: Vec<String> = (0..most - 1).map(|n| format!("N{n}={n}")).collect();
    let array = rng.chance(50);
    texts.insert(
        rng.below(texts.len()),
        if array { "DIMENSIONL(9)" } else { "DO7L=1,1" }.to_string(),
    );
    texts.push(if array { "L(3)=1" } else { "7 CONTINUE" }.to_string());
    texts
}

fn dos(rng: &mut Rng, most: usize) -> Vec<String> {
    let number = |n: usize| n + 10;
    let turns = rng.range(1, 4);
    (0..most)
        .flat_map(|n| [format!("DO{}I=1,{turns}", number(n)), format!("{} J=J+I", number(n))])
        .collect()
}

fn nested(rng: &mut Rng, most: usize) -> Vec<String> {
    let variables = ["I", "J", "K", "L", "M", "N", "I1", "I2", "I3", "I4"];
    let shared = rng.chance(50);
    let last = |n: usize| if shared { 7 } else { 50 - n };
    let mut texts: Vec<String> = (0..most)
        .map(|n| format!("DO{}{}=1,2", last(n), variables[n]))
        .collect();
    let lasts = if shared { 1 } else { most };
    texts.extend((0..lasts).rev().map(|n| format!("{} NSUM=NSUM+I", last(n))));
    texts
}

fn constants(_: &mut Rng, most: usize) -> Vec<String> {
    sums(most, |n| n.to_string())
}

fn elements(rng: &mut Rng, most: usize) -> Vec<String> {
    let rows = rng.range(7, 300);
    let mut texts = vec![format!("DIMENSIONL({rows})")];
    texts.extend(sums(most, |n| format!("L({})", n % rows + 1)));
    texts
}

/// Assignments of sums of at most fifty operands each.
pub(super) fn sums(count: usize, operand: impl Fn(usize) -> String) -> Vec<String> {
    let operands: Vec<String> = (0..count).map(operand).collect();
    operands
        .chunks(50)
        .map(|part| format!("I={}", part.join("+")))
        .collect()
}

/// IFs of three exit words, and computed GO TOs of four for what is left.
fn exits(_: &mut Rng, most: usize) -> Vec<String> {
    fill_exits(most)
}

pub(super) fn fill_exits(words: usize) -> Vec<String> {
    let fours = words % 3;
    let mut texts = vec!["IF(I)7,7,7".to_string(); (words - 4 * fours) / 3];
    texts.extend(vec![computed(4); fours]);
    texts.push("7 I=I-1".to_string());
    texts
}

/// Computed GO TOs of eleven exit words, and smaller ones for what is left.
fn chosen_exits(rng: &mut Rng, most: usize) -> Vec<String> {
    let mut sizes = vec![11; most / 11];
    match most % 11 {
        0 => {}
        left @ (1 | 2) => {
            sizes.pop();
            sizes.extend([6, 5 + left]);
        }
        left => sizes.push(left),
    }
    let mut texts = vec![format!("I={}", rng.below(12))];
    texts.extend(sizes.into_iter().map(computed));
    texts.push("7 STOP".to_string());
    texts
}

/// A computed GO TO that takes so many exit words.
fn computed(words: usize) -> String {
    format!("GOTO({}),I", vec!["7"; words - 1].join(","))
}

/// Statements that bring exactly so many words, END's among them.
fn code(_: &mut Rng, most: usize) -> Vec<String> {
    fill_code(most - 1)
}

pub(super) fn fill_code(words: usize) -> Vec<String> {
    let mut left = words;
    let mut texts = Vec::new();
    while left > 1 {
        // A sum of t ones and its store are 2*t words, with a minus in front one more.
        let terms = (left / 2).min(300);
        let odd = left == 2 * terms + 1;
        texts.push(format!("I={}1{}", if odd { "-" } else { "" }, "+1".repeat(terms - 1)));
        left -= 2 * terms + usize::from(odd);
    }
    texts.extend(vec!["STOP".to_string(); left]);
    texts
}

/// The same, where the last words are a DO's own.
fn code_by_dos(rng: &mut Rng, most: usize) -> Vec<String> {
    let dos = rng.range(1, 5);
    let mut texts = code(rng, most - 5 * dos);
    texts.extend((0..dos).map(|n| format!("DO7{}=1,2", ["I", "J", "K", "L", "M"][n])));
    texts.push("7 CONTINUE".to_string());
    texts
}

fn cells(rng: &mut Rng, most: usize) -> Vec<String> {
    let plain = rng.below(3);
    let columns = *rng.pick(&[1, 2, 4, 64]);
    let looping = rng.chance(50);
    let left = most - plain - if looping { 3 } else { 0 };
    let mut texts = vec![format!(
        "DIMENSIONL({},{columns}),LL({})",
        left / columns - 1,
        left % columns + columns
    )];
    texts.extend((0..plain).map(|n| format!("N{n}=L({},{columns})", rng.range(1, left / columns - 1))));
    if looping {
        texts.push("DO7I=1,9".to_string());
        texts.push(format!("7 L(I,{columns})=I*I"));
    }
    texts
}

fn parentheses(rng: &mut Rng, most: usize) -> Vec<String> {
    let (open, close) = ("(".repeat(most), ")".repeat(most));
    let deep = format!("{open}1+I*3{close}");
    let steep = format!("{}1{close}", "1+2*(".repeat(most));
    let text = if rng.chance(50) { deep } else { steep };
    if rng.chance(50) {
        return vec![format!("J={text}")];
    }
    vec![
        "DIMENSIONL(2)".to_string(),
        format!("IF({text}-L(1))7,7,7"),
        "7 CONTINUE".to_string(),
    ]
}

fn number(rng: &mut Rng, most: usize) -> Vec<String> {
    let zeros = "0".repeat(rng.below(3));
    let defined = most.min(LARGEST_NUMBER as usize);
    let text = match rng.below(4) {
        0 => format!("GOTO{zeros}{most}"),
        1 => format!("IF(I){defined},{zeros}{most},{defined}"),
        2 => format!("GOTO({defined},{zeros}{most}),I"),
        _ => format!("DO{zeros}{most}I=1,3"),
    };
    vec![text, format!("{defined} CONTINUE")]
}

/// A deck of so many cards: zeros before a number fill card after card with one statement.
fn cards(rng: &mut Rng, most: usize) -> Vec<String> {
    let each = rng.range(2, CONTINUATIONS + 1);
    // END and the statement jumped to take a card each.
    let left = most - 2;
    let mut texts = vec![format!("GOTO{}7", "0".repeat(each * 66 - 5)); left / each];
    texts.extend(vec!["CONTINUE".to_string(); left % each]);
    texts.push("7 CONTINUE".to_string());
    texts
}
