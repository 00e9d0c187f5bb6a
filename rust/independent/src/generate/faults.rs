//! Decks with exactly one fault, by its reason.

use super::card_templates;
use super::cards_wrong;
use super::overfull::{self, Overfull};
use super::punch::{punch, Style};
use super::source::{self, Line};
use super::templates::{Template, Where, JUMPS, RANGES, STATEMENTS};
use super::{Made, Rng};
use crate::level::Level;
use crate::limits::LARGEST_NUMBER;

/// A deck that is refused for one reason, which begins with the number, and where.
#[derive(Clone, Debug)]
pub struct Faulty {
    pub reason: String,
    pub made: Made,
    pub place: u32,
}

impl Faulty {
    /// The number that the deck is refused by.
    pub fn number(&self) -> u32 {
        let end = self.reason.find(' ').unwrap_or(self.reason.len());
        self.reason[..end].parse().unwrap_or(0)
    }
}

/// The templates that come at a level, and what goes over a limit there.
fn new_at(level: Level) -> (&'static [Template], &'static [Overfull]) {
    match level {
        Level::Base => (STATEMENTS, overfull::REASONS),
        Level::Cards => (card_templates::STATEMENTS, overfull::CARD_REASONS),
    }
}

/// How many reasons the base has from 1 to 25.
pub fn deck_reasons() -> usize {
    cards_wrong::REASONS.len() + JUMPS.len() * RANGES.len() + new_reasons(Level::Base)
}

/// How many reasons come with a level, the base's about cards and jumps not among them.
fn new_reasons(level: Level) -> usize {
    let (templates, overfull) = new_at(level);
    templates.len() + overfull.len()
}

/// How many reasons there are at a level.
pub fn deck_reasons_at(level: Level) -> usize {
    match level {
        Level::Base => deck_reasons(),
        Level::Cards => deck_reasons() + new_reasons(level),
    }
}

/// A deck of the base with the fault of a reason, counted from 0.
pub fn faulty_deck(rng: &mut Rng, reason: usize) -> Faulty {
    faulty_deck_at(Level::Base, rng, reason)
}

/// A deck of a level with the fault of a reason, counted from 0, the base's first.
pub fn faulty_deck_at(level: Level, rng: &mut Rng, reason: usize) -> Faulty {
    match reason.checked_sub(deck_reasons()) {
        None => faulty_by_base(level, rng, reason),
        Some(left) => {
            let (templates, overfull) = new_at(Level::Cards);
            match templates.get(left) {
                Some(template) => insert_template(level, rng, template),
                None => overfull::faulty(rng, &overfull[left - templates.len()]),
            }
        }
    }
}

fn faulty_by_base(level: Level, rng: &mut Rng, reason: usize) -> Faulty {
    let mut left = reason;
    if let Some(reason) = cards_wrong::REASONS.get(left) {
        return cards_wrong::faulty(level, rng, reason);
    }
    left -= cards_wrong::REASONS.len();
    if let Some(template) = STATEMENTS.get(left) {
        return insert_template(level, rng, template);
    }
    left -= STATEMENTS.len();
    if left < JUMPS.len() * RANGES.len() {
        let ((jump, jumps), (range, ranges)) = (JUMPS[left % JUMPS.len()], RANGES[left / JUMPS.len()]);
        let (lines, jumping) = (*rng.pick(ranges), *rng.pick(jumps));
        let lines = lines.replace('J', jumping);
        return insert(level, rng, format!("24 {jump} {range}"), Where::Outside, &lines);
    }
    left -= JUMPS.len() * RANGES.len();
    overfull::faulty(rng, &overfull::REASONS[left])
}

fn insert_template(level: Level, rng: &mut Rng, (reason, place, choices): &Template) -> Faulty {
    let lines = *rng.pick(choices);
    insert(level, rng, reason.to_string(), *place, lines)
}

/// An ordinary deck with the lines in it.
fn insert(level: Level, rng: &mut Rng, reason: String, place: Where, lines: &str) -> Faulty {
    let k = rng.range(1, 9) as u32;
    let mut program = source::program(level, rng, k, false);
    let (fault, lines) = fill(rng, k, &program, lines);
    let at = place_lines(rng, &mut program, place, lines);
    let style = Style::any(rng);
    Faulty {
        reason,
        place: (at + fault + 1) as u32,
        made: Made {
            k,
            deck: punch(rng, &program, style),
        },
    }
}

/// Puts the lines in the program, which ends with END, and gives where they begin.
pub(super) fn place_lines(rng: &mut Rng, program: &mut Vec<Line>, place: Where, lines: Vec<Line>) -> usize {
    let last = program.len() - 1;
    let at = match place {
        Where::Anywhere => rng.below(last + 1),
        Where::Outside => *rng.pick(&[0, last]),
        Where::InsteadOfEnd => {
            program.pop();
            last
        }
    };
    program.splice(at..at, lines);
    at
}

/// The lines of a template, and which of them is at fault.
pub(super) fn fill(rng: &mut Rng, k: u32, program: &[Line], template: &str) -> (usize, Vec<Line>) {
    let numbers = free_numbers(rng, program);
    let (open, close) = parentheses(rng, template);
    let (mut fault, mut lines) = (0, Vec::new());
    for line in template.split('|') {
        if line == "f" {
            lines.extend(harmless(rng));
            continue;
        }
        let line = line.strip_prefix('!').inspect(|_| fault = lines.len()).unwrap_or(line);
        let mut text = String::new();
        for c in line.chars() {
            match c {
                'n' | 'm' | 'p' | 'q' | 'u' => {
                    let index = "nmpqu".find(c).unwrap_or(0);
                    text += &numbers[index].to_string();
                }
                'd' => text += &rng.range(1, 9).to_string(),
                'z' => text += &over(rng, k, 1),
                'y' => text += &over(rng, k, 0),
                'o' => text += &open,
                'c' => text += &close,
                'b' => text += &" ".repeat(70),
                'x' => text += *rng.pick(&["1", "MINE", "2*MORE", "-MINE+3", "(4-MORE)/2"]),
                c => text.push(c),
            }
        }
        lines.push(line_of(&text));
    }
    (fault, lines)
}

/// A text with its number, if any, before a blank.
pub(super) fn line_of(text: &str) -> Line {
    let number = text
        .split_once(' ')
        .and_then(|(number, text)| Some((number.parse().ok()?, text)));
    Line {
        number: number.map(|(number, _)| number),
        text: number.map_or(text, |(_, text)| text).to_string(),
    }
}

/// Five numbers that no line has or names.
fn free_numbers(rng: &mut Rng, program: &[Line]) -> Vec<u32> {
    let used = |number: u32| {
        let written = number.to_string();
        program
            .iter()
            .any(|line| line.number == Some(number) || line.text.contains(&written))
    };
    let mut free = Vec::new();
    while free.len() < 5 {
        let number = rng.range(1, LARGEST_NUMBER as usize) as u32;
        if !used(number) && !free.contains(&number) {
            free.push(number);
        }
    }
    free
}

/// More than sixteen of each, as many as a statement's cards have room for.
fn parentheses(rng: &mut Rng, template: &str) -> (String, String) {
    let most = if template.contains("IF") { 200 } else { 300 };
    let depth = *rng.pick(&[17, 17, 18, 30, most]);
    ("(".repeat(depth), ")".repeat(depth))
}

fn harmless(rng: &mut Rng) -> Vec<Line> {
    let texts = ["CONTINUE", "MADE=MADE+1", "MADE=2", "STOP"].map(line_of);
    (0..rng.below(3)).map(|_| rng.pick(&texts).clone()).collect()
}

/// A constant of over k digits, with a digit or with zeros at its front.
fn over(rng: &mut Rng, k: u32, front: usize) -> String {
    let digits = k as usize + *rng.pick(&[1, 1, 2, 9]);
    let mut text = if front == 0 {
        "0".to_string()
    } else {
        rng.range(1, 9).to_string()
    };
    while text.len() < digits {
        text += &if front == 0 {
            "0".to_string()
        } else {
            rng.below(10).to_string()
        };
    }
    text.pop();
    text + &rng.below(10).to_string()
}
