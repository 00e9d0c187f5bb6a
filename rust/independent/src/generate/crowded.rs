//! Decks with several faults at once, in one statement or in two, so that the lowest number has to be found.

use super::cards_wrong;
use super::faults::{fill, place_lines};
use super::punch::{punch, Style};
use super::source;
use super::templates::{Where, JUMPS, RANGES, STATEMENTS};
use super::{Made, Rng};
use crate::level::Level;

/// Right and wrong operands; capital letters are punched, small ones are as in the templates.
const OPERANDS: [&str; 12] = [
    "1",
    "MINE",
    "LADDER(1)",
    "x",
    "A",
    "MINEOWN",
    "z",
    "y",
    "oMOREc",
    "LADDER",
    "MAST(1)",
    "LADDER(1,H+z)",
];
const NAMES: [&str; 6] = ["MINE", "MORE", "A", "MINEOWN", "LADDER", "LAST"];
const NUMBERS: [&str; 6] = ["n", "m", "n", "0", "100000", "u"];
const ARRAYS: [&str; 12] = [
    "MAST(2)",
    "LAST(2,3)",
    "MAST(0)",
    "A(2)",
    "MINEOWN(3)",
    "LEAF(2)",
    "LADDER(2)",
    "MINE(2)",
    "MAST(z)",
    "MAST(y,2)",
    "JOB(9,9)",
    "JOB(4097)",
];

/// A deck in which one statement has any number of faults, or two statements have one each.
pub fn crowded_deck(rng: &mut Rng) -> Made {
    let k = rng.range(1, 9) as u32;
    let mut program = source::program(Level::Base, rng, k, false);
    if rng.chance(60) {
        let declared = if rng.chance(80) {
            "DIMENSIONLADDER(2)|"
        } else {
            "MINE=2|"
        };
        let lines = format!("{declared}{}|n CONTINUE|m CONTINUE", statement(rng));
        let (_, lines) = fill(rng, k, &program, &lines);
        place_lines(rng, &mut program, Where::Outside, lines);
    } else {
        for _ in 0..2 {
            let (place, lines) = any_template(rng);
            let (_, lines) = fill(rng, k, &program, &lines);
            place_lines(rng, &mut program, place, lines);
        }
    }
    let style = Style::any(rng);
    let deck = punch(rng, &program, style);
    let mut made = Made { k, deck };
    if rng.chance(10) {
        let (_, wrong) = rng.pick(cards_wrong::REASONS);
        wrong(rng, &mut made);
    }
    made
}

fn any_template(rng: &mut Rng) -> (Where, String) {
    if rng.chance(20) {
        let ((_, jumps), (_, ranges)) = (*rng.pick(JUMPS), *rng.pick(RANGES));
        let (range, jump) = (*rng.pick(ranges), *rng.pick(jumps));
        return (Where::Outside, range.replace('J', jump));
    }
    let (_, place, choices) = *rng.pick(STATEMENTS);
    // The second of two must find an END to stand before.
    let place = if place == Where::InsteadOfEnd {
        Where::Outside
    } else {
        place
    };
    (place, (*rng.pick(choices)).to_string())
}

fn statement(rng: &mut Rng) -> String {
    let number = |rng: &mut Rng| *rng.pick(&NUMBERS);
    match rng.below(5) {
        0 => format!(
            "{}={}",
            rng.pick(&["MINE", "A", "MINEOWN", "LADDER", "LADDER(z)", "MAST(1)"]),
            sum(rng)
        ),
        1 => {
            let exits = [number(rng), number(rng), number(rng)].join(",");
            format!("IF({}){exits}", sum(rng))
        }
        2 => {
            let exits: Vec<&str> = (0..rng.range(1, 11)).map(|_| number(rng)).collect();
            format!("GOTO({}),{}", exits.join(","), rng.pick(&NAMES))
        }
        3 => {
            let parameter = |rng: &mut Rng| *rng.pick(&["1", "2", "MINE", "z", "y", "A", "LADDER", "MINEOWN"]);
            let parameters = [parameter(rng), parameter(rng), parameter(rng)];
            let count = rng.range(2, 3);
            format!(
                "DO{}{}={}",
                number(rng),
                rng.pick(&NAMES),
                parameters[..count].join(",")
            )
        }
        _ => {
            let arrays: Vec<&str> = (0..rng.range(1, 4)).map(|_| *rng.pick(&ARRAYS)).collect();
            format!("DIMENSION{}", arrays.join(","))
        }
    }
}

/// A few operands, now and then with a slip that makes the text of no form.
fn sum(rng: &mut Rng) -> String {
    let operands: Vec<&str> = (0..rng.range(1, 3)).map(|_| *rng.pick(&OPERANDS)).collect();
    let slip = if rng.chance(8) {
        *rng.pick(&["+", ")", "**2"])
    } else {
        ""
    };
    operands.join(*rng.pick(&["+", "*", "-"])) + slip
}
