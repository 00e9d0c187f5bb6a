//! `hours` on generated decks and tables: each row ends as the independent implementation says, the losing ones too, and
//! with nine digits too.

mod common;

use std::ffi::OsString;

use common::{file, luvinqata};
use independent::compile::{accept, Deck};
use independent::generate::{ordinary_deck, value, Made, Rng};
use independent::interpret::{interpret, Values};
use independent::object::{NameEntry, Tables};
use independent::State;

const DECKS: u64 = 120;
const ROWS: usize = 30;
const STEPS: u32 = 3_000;
const BUDGET: u64 = STEPS as u64 * 401;

/// What a value is called and the cell it is in.
fn called(name: &NameEntry) -> Vec<(String, usize)> {
    let (text, first, rows) = (name.text(), name.first as usize, name.rows as usize);
    let one = |index: usize| match (rows, name.columns) {
        (0, _) => text.clone(),
        (_, 0) => format!("{text}({})", index + 1),
        _ => format!("{text}({},{})", index % rows + 1, index / rows + 1),
    };
    (0..name.size() as usize)
        .map(|index| (one(index), first + index))
        .collect()
}

/// An hour by the independent implementation.
struct Hour {
    values: Vec<i64>,
    halt: u32,
    loss: u32,
}

fn expected((deck, tables): &(Deck, Tables), values: &[(String, usize)], start: &[i64]) -> Hour {
    let mut store = start.to_vec();
    let ran = independent::run(&tables.to_bytes(), &mut store, &mut State::fresh(), STEPS).expect("right values");
    if ran.halt != 2 {
        let outcome = interpret(deck, &named(tables, start), BUDGET);
        assert_eq!((outcome.halt, outcome.first_loss), (ran.halt, ran.sequence));
        assert_eq!(outcome.values, named(tables, &store));
    }
    Hour {
        values: values.iter().map(|(_, cell)| store[*cell]).collect(),
        halt: ran.halt,
        loss: ran.sequence,
    }
}

impl Hour {
    fn row(&self) -> String {
        let values: Vec<String> = self.values.iter().map(i64::to_string).collect();
        format!("{},{},{}", values.join(","), self.halt, self.loss)
    }

    fn status(&self) -> i32 {
        i32::from(self.loss > 0) + 4 * i32::from(self.halt > 1)
    }

    /// What is otherwise with nine digits, if anything is.
    fn differs(&self, nine: &Hour, values: &[(String, usize)]) -> Option<String> {
        let pairs = values.iter().zip(self.values.iter().zip(&nine.values));
        let differ = pairs.filter(|(_, (five, nine))| five != nine);
        let mut words: Vec<String> = differ
            .map(|((name, _), (k, nine))| format!("{name} is {nine}, not {k}"))
            .collect();
        if self.halt != nine.halt {
            words.push(format!("the halt is {}, not {}", nine.halt, self.halt));
        }
        (!words.is_empty()).then(|| format!("with 9 digits {}", words.join("; ")))
    }
}

fn named(tables: &Tables, store: &[i64]) -> Values {
    let cells = |name: &NameEntry| store[name.first as usize..][..name.size() as usize].to_vec();
    tables.names.iter().map(|name| (name.text(), cells(name))).collect()
}

/// A table for a deck, options that give what its columns do not, and how its rows end.
struct Generated {
    table: String,
    sets: Vec<String>,
    answers: Vec<String>,
    /// The rows that differ with nine digits.
    differ: Vec<String>,
    statuses: i32,
    losing: usize,
}

/// None if no value is given.
fn generated(rng: &mut Rng, made: &Made) -> Option<Generated> {
    let [deck, nine] = [made.k, 9].map(|k| accept(k, &made.deck).expect("an ordinary deck"));
    let (k, tables) = (made.k, &deck.1);
    let values: Vec<(String, usize)> = tables.names.iter().flat_map(called).collect();
    let given: Vec<&(String, usize)> = values.iter().filter(|_| rng.chance(40)).take(12).collect();
    let header: Vec<String> = given.iter().map(|(name, _)| format!("\"{name}\"")).collect();
    let mut hours = Generated {
        table: format!("station,{}\n", header.join(",")),
        sets: Vec::new(),
        answers: Vec::new(),
        differ: Vec::new(),
        statuses: 0,
        losing: 0,
    };
    let mut same = vec![0; tables.cells as usize];
    for (name, cell) in values.iter().filter(|value| !given.contains(value)) {
        same[*cell] = if rng.chance(30) { value(rng, k) } else { 0 };
        hours.sets.push(format!("--set={name}={}", same[*cell]));
    }
    for row in 0..ROWS {
        let mut store = same.clone();
        let mut fields = vec![format!("S{row}")];
        for (_, cell) in &given {
            store[*cell] = value(rng, k);
            fields.push(store[*cell].to_string());
        }
        hours.table += &format!("{}\n", fields.join(","));
        let [hour, with] = [&deck, &nine].map(|deck| expected(deck, &values, &store));
        hours.answers.push(format!("{},S{row},{}", row + 2, hour.row()));
        let differs = hour.differs(&with, &values);
        hours
            .differ
            .extend(differs.map(|words| format!("line {}: {words}", row + 2)));
        hours.statuses |= hour.status();
        hours.losing += usize::from(hour.loss > 0);
    }
    (!given.is_empty()).then_some(hours)
}

#[test]
fn generated_hours_end_as_they_should() {
    let (mut rows, mut lost, mut differing) = (0, 0, 0);
    for seed in 0..DECKS {
        let mut rng = Rng::new(seed);
        let made = ordinary_deck(&mut rng);
        let Some(hours) = generated(&mut rng, &made) else {
            continue;
        };
        let files = [
            ("generated.deck", &made.deck[..]),
            ("generated.csv", hours.table.as_bytes()),
        ];
        let paths = files.map(|(name, bytes)| file(name, bytes).into_os_string());
        let options = format!("hours --cards --digits={} --steps={STEPS} --compare=9", made.k);
        let mut arguments: Vec<OsString> = options.split(' ').map(OsString::from).collect();
        arguments.extend(hours.sets.iter().map(OsString::from));
        arguments.extend(paths);
        let ended = luvinqata(&arguments, b"");
        let written: Vec<&str> = ended.out.lines().skip(1).collect();
        assert_eq!(written, hours.answers, "seed {seed}");
        let differ: Vec<&str> = ended.told.lines().filter(|line| line.starts_with("line ")).collect();
        assert_eq!(differ, hours.differ, "seed {seed}");
        assert_eq!(ended.status, hours.statuses, "seed {seed}");
        (rows, lost, differing) = (rows + ROWS, lost + hours.losing, differing + differ.len());
    }
    println!("{rows} rows, {lost} lost digits, {differing} differ with nine");
    assert!(lost > 300 && differing > 300, "{lost} and {differing} of {rows}");
}
