//! Which values a deck reads and never sets: by its statements, and as `hours` tells it of the object's code.

mod common;

use std::collections::BTreeSet;

use common::{file, luvinqata, Ended};
use independent::compile::{accept, Deck};
use independent::generate::{ordinary_deck, Made, Rng};
use independent::object::{NameEntry, Tables};
use independent::reader::{Expression, Factor, Form, Parameter, Reference, Subscript};

const DECKS: u64 = 400;

/// The cells that statements read and set.
struct Uses<'t> {
    tables: &'t Tables,
    reads: BTreeSet<u32>,
    sets: BTreeSet<u32>,
}

impl Uses<'_> {
    fn of(deck: &Deck, tables: &Tables) -> (BTreeSet<u32>, BTreeSet<u32>) {
        let (reads, sets) = (BTreeSet::new(), BTreeSet::new());
        let mut uses = Uses { tables, reads, sets };
        for statement in deck.statements() {
            match &statement.form {
                Form::Assign { target, value } => {
                    uses.expression(value);
                    let cells = uses.cells(target);
                    uses.sets.extend(cells);
                }
                Form::Computed { selector, .. } => uses.name(selector),
                Form::If { value, .. } => uses.expression(value),
                Form::Do(turns) => {
                    for parameter in [Some(&turns.first), Some(&turns.limit), turns.step.as_ref()]
                        .into_iter()
                        .flatten()
                    {
                        if let Parameter::Name(name) = parameter {
                            uses.name(name);
                        }
                    }
                    let variable = uses.entry(&turns.variable).first;
                    uses.sets.insert(variable);
                }
                _ => {}
            }
        }
        (uses.reads, uses.sets)
    }

    fn entry(&self, name: &str) -> &NameEntry {
        let found = self.tables.names.iter().find(|entry| entry.text() == name);
        found.expect("a name of the deck")
    }

    fn name(&mut self, name: &str) {
        let first = self.entry(name).first;
        self.reads.insert(first);
    }

    /// The cells that a name or an element can be. Values in subscripts are read.
    fn cells(&mut self, reference: &Reference) -> Vec<u32> {
        let NameEntry {
            first, rows, columns, ..
        } = *self.entry(&reference.name);
        let mut places = Vec::new();
        for (subscript, most) in reference.subscripts.iter().zip([rows, columns]) {
            places.push(match subscript {
                Subscript::Constant(place) => (1..=most).filter(|p| p == place).collect(),
                Subscript::Linear {
                    multiplier: 0, addend, ..
                } => (1..=most).filter(|p| i64::from(*p) == *addend).collect(),
                Subscript::Linear { name, .. } => {
                    self.name(name);
                    (1..=most).collect::<Vec<u32>>()
                }
            });
        }
        let one = vec![1];
        let (of_rows, of_columns) = (places.first().unwrap_or(&one), places.get(1).unwrap_or(&one));
        let cell = |row: &u32, column: &u32| first + row - 1 + (column - 1) * rows;
        of_columns
            .iter()
            .flat_map(|column| of_rows.iter().map(move |row| cell(row, column)))
            .collect()
    }

    fn expression(&mut self, expression: &Expression) {
        let terms = expression.rest.iter().map(|(_, term)| term).chain([&expression.first]);
        for factor in terms.flat_map(|term| term.rest.iter().map(|(_, factor)| factor).chain([&term.first])) {
            match factor {
                Factor::Constant(_) => {}
                Factor::Parenthesis(inner) => self.expression(inner),
                Factor::Reference(reference) => {
                    let cells = self.cells(reference);
                    self.reads.extend(cells);
                }
            }
        }
    }
}

/// A table that gives the first value alone, and `--set` for some others.
fn hours(made: &Made, first: &str, set: &[&String]) -> Ended {
    let path = file("uses.deck", &made.deck);
    let digits = format!("--digits={}", made.k);
    let given: Vec<String> = set.iter().map(|name| format!("--set={name}=1")).collect();
    let mut arguments = vec![
        "hours",
        "--cards",
        "--quiet",
        &digits,
        path.to_str().expect("a path"),
        "-",
    ];
    arguments.extend(given.iter().map(String::as_str));
    luvinqata(&arguments, format!("\"{first}\"\n1\n").as_bytes())
}

/// Of all that the statements need, the one is told that is not given.
#[test]
fn what_the_statements_need_is_told() {
    let mut told = 0;
    for seed in 0..DECKS {
        let made = ordinary_deck(&mut Rng::new(seed));
        let (deck, tables) = accept(made.k, &made.deck).expect("an ordinary deck");
        let (reads, sets) = Uses::of(&deck, &tables);
        let values: Vec<(String, u32)> = tables.names.iter().flat_map(called).collect();
        let Some(((first, _), rest)) = values.split_first() else {
            continue;
        };
        let needs = |cell: &u32| reads.contains(cell) && !sets.contains(cell);
        let needed: Vec<&String> = rest
            .iter()
            .filter(|(_, cell)| needs(cell))
            .map(|(name, _)| name)
            .collect();
        let ended = hours(&made, first, &needed);
        assert_eq!((ended.status & 2, ended.told.as_str()), (0, ""), "seed {seed}");
        if let [one, others @ ..] = &needed[..] {
            let ended = hours(&made, first, others);
            let words = format!("luvinqata: -: no column gives {one}, which the deck");
            assert_eq!((ended.status, ended.out.as_str()), (2, ""), "seed {seed}");
            assert!(ended.told.starts_with(&words), "seed {seed}: {}", ended.told);
            told += 1;
        }
    }
    assert!(told > 100, "{told}");
}

fn called(name: &NameEntry) -> Vec<(String, u32)> {
    let (text, rows) = (name.text(), name.rows);
    let one = |index: u32| match (rows, name.columns) {
        (0, _) => text.clone(),
        (_, 0) => format!("{text}({})", index + 1),
        _ => format!("{text}({},{})", index % rows + 1, index / rows + 1),
    };
    (0..name.size() as u32)
        .map(|index| (one(index), name.first + index))
        .collect()
}
