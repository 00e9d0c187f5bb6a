//! Decks in which one statement takes a table over its limit (18), and the statements before it fill the table.

use super::faults::{fill, Faulty};
use super::limits::{fill_code, fill_exits, sums};
use super::punch::{punch, Style};
use super::{Made, Rng};
use crate::limits::*;

/// A reason, the statements before, and the one over the limit.
pub type Overfull = (&'static str, fn(&mut Rng) -> Vec<String>, &'static [&'static str]);

pub const REASONS: &[Overfull] = &[
    (
        "18 names: a plain name",
        names,
        &[
            "!MINE=1",
            "!N1=MINE",
            "!IF(MINE)n,n,n|n CONTINUE",
            "!GOTO(n,n),MINE|n CONTINUE",
        ],
    ),
    (
        "18 names: an array",
        names,
        &["!DIMENSIONLADDER(2)", "!DIMENSIONLADDER(2,2)"],
    ),
    ("18 names: a DO's variable", names, &["!DOnMINE=1,2|n CONTINUE"]),
    (
        "18 names: in a subscript",
        names_and_array,
        &["!MAST(MINE)=1", "!N1=MAST(2*MINE-1)"],
    ),
    ("18 DOs", dos, &["!DOnMINE=1,2|n CONTINUE"]),
    (
        "18 constants: in an expression",
        constants,
        &["!MINE=999", "!IF(MINE+998)n,n,n|n CONTINUE"],
    ),
    (
        "18 constants: a DO's parameter",
        constants,
        &["!DOnMINE=2,999|n CONTINUE", "!DOnMINE=2,3,998|n CONTINUE"],
    ),
    (
        "18 constants: a missing third parameter",
        constants,
        &["!DOnMINE=2,3|n CONTINUE"],
    ),
    (
        "18 elements: in an expression",
        elements,
        &["!MINE=MAST(1)", "!MINE=2+MAST(MORE)"],
    ),
    ("18 elements: a target", elements, &["!MAST(1)=2", "!MAST(MORE+1)=2"]),
    ("18 exits: IF", |rng| exits(rng, 3), &["!IF(MINE)n,n,n|n CONTINUE"]),
    (
        "18 exits: computed GO TO",
        |rng| exits(rng, 4),
        &["!GOTO(n,n,n),MINE|n CONTINUE"],
    ),
    (
        "18 exits: the longest computed GO TO",
        |rng| exits(rng, 11),
        &["!GOTO(n,n,n,n,n,n,n,n,n,n),MINE|n CONTINUE"],
    ),
    (
        "18 code: an expression",
        |rng| code(rng, 4),
        &["!MINE=1+MINE", "!IF(MINE-1)n,n,n|n CONTINUE"],
    ),
    ("18 code: a store", |_| fill_code(CODE - 1), &["!MINE=1"]),
    ("18 code: a jump", |_| fill_code(CODE), &["!GOTOn|n CONTINUE", "!STOP"]),
    ("18 code: a DO", |rng| code(rng, 4), &["!DOnMINE=1,2|n CONTINUE"]),
    (
        "18 code: a DO's DOE",
        |_| fill_code(CODE - 4),
        &["!DOnMINE=1,2|n CONTINUE"],
    ),
    ("18 code: END", |_| fill_code(CODE), &["!END"]),
    (
        "18 cells: a plain name",
        |_| cells(CELLS),
        &["!MINE=1", "!MAST(MINE)=1"],
    ),
    (
        "18 cells: a row",
        |rng| cells_left(rng, 5),
        &[
            "!DIMENSIONLADDER(6)",
            "!DIMENSIONLADDER(4096)",
            "!DIMENSIONLADDER(1),LAST(5)",
            "!DIMENSIONLADDER(9999)",
        ],
    ),
    (
        "18 cells: rows and columns",
        |rng| cells_left(rng, 5),
        &[
            "!DIMENSIONLADDER(2,3)",
            "!DIMENSIONLADDER(9999,9999)",
            "!DIMENSIONLADDER(1,6)",
            "!DIMENSIONLADDER(1024,4)",
        ],
    ),
    (
        "18 cells: a DO's own",
        |rng| cells(CELLS - rng.range(1, 2)),
        &["!DOnMINE=1,1|n CONTINUE"],
    ),
];

/// What 2026-01 brings.
pub const CARD_REASONS: &[Overfull] = &[
    (
        "18 format words",
        |rng| format_words(rng, 3),
        &[
            "!n FORMAT(2I5,1X)",
            "!n FORMAT(3(I5))",
            "!n FORMAT(3HA B)",
            "!n FORMAT(///)",
        ],
    ),
    (
        "18 format words: repeated",
        |_| vec!["PRINT9".to_string(), "9 FORMAT(1X)".to_string()],
        &[
            "!n FORMAT(4095(I5))",
            "!n FORMAT(99999(99999(99999(1X))))",
            "!n FORMAT(64(64I5))",
            "!n FORMAT(99999I1)",
        ],
    ),
    (
        "18 list items",
        |rng| items(LIST_ITEMS - rng.below(3)),
        &["!PRINTn,MINE,MORE,MINE|n FORMAT(I5)", "!READn,J,J,J|n FORMAT(I5)"],
    ),
    (
        "18 names: in a list",
        names,
        &["!PRINTn,MINE|n FORMAT(I5)", "!READn,N1,MINE|n FORMAT(I5)"],
    ),
    (
        "18 elements: in a list",
        elements,
        &["!PRINTn,MAST(1)|n FORMAT(I5)", "!READn,MAST,MAST(I+1)|n FORMAT(I5)"],
    ),
    (
        "18 cells: in a list",
        |_| cells(CELLS),
        &["!READn,MINE|n FORMAT(I5)", "!PRINTn,MAST(MINE)|n FORMAT(I5)"],
    ),
    (
        "18 code: a READ or PRINT",
        |_| fill_code(CODE),
        &["!READn|n FORMAT(I5)", "!PRINTn|n FORMAT(I5)"],
    ),
];

/// Enough digits for every constant above.
pub fn faulty(rng: &mut Rng, (reason, before, choices): &Overfull) -> Faulty {
    let k = rng.range(4, 9) as u32;
    let template = [
        before(rng).join("|"),
        (*rng.pick(choices)).to_string(),
        "END".to_string(),
    ]
    .join("|");
    let (fault, lines) = fill(rng, k, &[], &template);
    let style = Style::sparing(rng);
    Faulty {
        reason: reason.to_string(),
        place: fault as u32 + 1,
        made: Made {
            k,
            deck: punch(rng, &lines, style),
        },
    }
}

fn names(rng: &mut Rng) -> Vec<String> {
    let mut texts: Vec<String> = (0..NAMES).map(|name| format!("N{name}=1")).collect();
    if rng.chance(50) {
        texts[0] = "DIMENSIONMAST(3)".to_string();
    }
    texts
}

fn names_and_array(rng: &mut Rng) -> Vec<String> {
    let mut texts = names(rng);
    texts[0] = "DIMENSIONMAST(3)".to_string();
    texts
}

fn dos(_: &mut Rng) -> Vec<String> {
    (0..DOS)
        .flat_map(|number| {
            [
                format!("DO{}KEPT=1,2", number + 10),
                format!("{} CONTINUE", number + 10),
            ]
        })
        .collect()
}

/// Every constant but 1 and those from 257 on.
fn constants(_: &mut Rng) -> Vec<String> {
    sums(CONSTANTS, |n| if n == 1 { CONSTANTS } else { n }.to_string())
}

fn elements(_: &mut Rng) -> Vec<String> {
    let mut texts = vec!["DIMENSIONMAST(9)".to_string()];
    texts.extend(sums(ELEMENTS, |n| format!("MAST({})", n % 9 + 1)));
    texts
}

/// Fewer exits left than the next statement takes.
fn exits(rng: &mut Rng, taken: usize) -> Vec<String> {
    fill_exits(EXITS - rng.below(taken))
}

/// Fewer words left than the next statement takes.
fn code(rng: &mut Rng, taken: usize) -> Vec<String> {
    fill_code(CODE - rng.below(taken))
}

/// At most so many format words left.
fn format_words(rng: &mut Rng, most: usize) -> Vec<String> {
    let filled = FORMAT_WORDS - rng.below(most + 1);
    vec![format!("9 FORMAT(4000X,{}I1)", filled - 2)]
}

/// PRINTs with so many items.
fn items(count: usize) -> Vec<String> {
    let all = vec!["J"; count];
    let mut texts: Vec<String> = all
        .chunks(300)
        .map(|part| format!("PRINT9,{}", part.join(",")))
        .collect();
    texts.push("9 FORMAT(I5)".to_string());
    texts
}

fn cells(filled: usize) -> Vec<String> {
    vec![format!("DIMENSIONMAST({filled})")]
}

/// At most so many cells left.
fn cells_left(rng: &mut Rng, most: usize) -> Vec<String> {
    cells(CELLS - rng.below(most + 1))
}
