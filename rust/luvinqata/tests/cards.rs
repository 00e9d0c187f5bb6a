//! Decks with READ, PRINT and FORMAT, compiled by the independent implementation: the archive checks, maps and runs their objects as it does,
//! and as the statements mean; a run in parts, each of which is lent the rest, is the whole run.

mod common;

use std::collections::BTreeMap;
use std::io::{stdout, Write};

use common::LEVEL;
use independent::compile::Deck;
use independent::generate::{self, told_deck, Rng, PRINTED, PUNCHED};
use independent::interpret::{interpret_lent, Values};
use independent::kinds::{kinds, KINDS};
use independent::lent::Trouble;
use independent::object::Tables;
use independent::{Lent, Ran, State};
use luvinqata::Trays;

const DECKS: u64 = 10_000;
const FIELDS: u64 = 5_000;
/// At least so many of each kind, each trouble and each halt.
const LEAST: u32 = 50;
const STEPS: u32 = 3_000;
/// Between two steps there are fewer than 401 statements, for a CONTINUE takes no step.
const BUDGET: u64 = STEPS as u64 * 401;
const FILL: u8 = 0xA5;

struct Case {
    seed: u64,
    deck: Deck,
    tables: Tables,
    object: Vec<u8>,
    store: Vec<i64>,
    cards: Vec<u8>,
    room: usize,
}

impl Case {
    fn lent(&self) -> Lent<'_> {
        Lent::new(&self.cards, self.room)
    }

    fn trays(&self) -> Trays<'_> {
        Trays::new(&self.cards, self.room)
    }

    /// The store's values by name.
    fn named(&self, store: &[i64]) -> Values {
        let cells = |first: u32, size: u64| store[first as usize..][..size as usize].to_vec();
        self.tables
            .names
            .iter()
            .map(|name| (name.text(), cells(name.first, name.size())))
            .collect()
    }
}

/// None: the deck is refused.
fn case(seed: u64, rng: &mut Rng) -> Option<Case> {
    let made = match rng.chance(80) {
        true => generate::ordinary_deck_at(LEVEL, rng),
        false => generate::deck_at(LEVEL, rng),
    };
    let (deck, tables) = LEVEL.accept(made.k, &made.deck).ok()?;
    Some(Case {
        seed,
        object: tables.to_bytes(),
        store: generate::store(rng, made.k, tables.cells as usize),
        cards: generate::cards(rng),
        room: *rng.pick(&[0, 1, 2, 5, 40, 200, 200, 200]),
        deck,
        tables,
    })
}

/// How a run ended, and all that it left.
struct Left<'c> {
    ran: Ran,
    store: Vec<i64>,
    state: State,
    trays: Trays<'c>,
}

/// A run of so many steps, beside the independent one.
fn run(case: &Case, allowance: u32) -> Left<'_> {
    let seed = case.seed;
    let (mut store, mut state, mut trays) = (case.store.clone(), State::fresh(), case.trays());
    let ran = common::run_with(&case.object, &mut store, &mut state, &mut trays, allowance);
    let (mut their_store, mut their_state, mut lent) = (case.store.clone(), State::fresh(), case.lent());
    let theirs = LEVEL.run(&case.object, &mut their_store, &mut their_state, allowance, &mut lent);
    assert_eq!(ran, theirs, "run, seed {seed}");
    assert_eq!((&store, state), (&their_store, their_state), "run, seed {seed}");
    assert!(common::used_alike(&trays, &lent), "run, seed {seed}");
    let ran = ran.expect("a right store and a fresh state");
    Left {
        ran,
        store,
        state,
        trays,
    }
}

/// The same run in parts of random lengths: whether a later one read or printed.
fn run_in_parts(case: &Case, rng: &mut Rng, allowance: u32, whole: &Left) -> bool {
    let seed = case.seed;
    let (mut store, mut state, mut trays) = (case.store.clone(), State::fresh(), case.trays());
    let (mut left, mut steps, mut after_first) = (allowance, 0, None);
    loop {
        let part = rng.below(left as usize + 1).min(rng.range(0, 20)) as u32;
        let ran = common::run_with(&case.object, &mut store, &mut state, &mut trays, part).expect("what a run left");
        (left, steps) = (left - part, steps + ran.steps);
        let used = (trays.cards.taken(), trays.lines.room());
        let first = *after_first.get_or_insert(used);
        if ran.halt != 2 || left == 0 {
            assert_eq!(Ran { steps, ..ran }, whole.ran, "parts, seed {seed}");
            assert_eq!((&store, state), (&whole.store, whole.state), "parts, seed {seed}");
            assert_eq!(trays, whole.trays, "parts, seed {seed}");
            return used != first;
        }
    }
}

fn compare_bench(case: &Case, allowance: u32, run: &Left) {
    let seed = case.seed;
    let (mut store, mut state, mut trays) = (case.store.clone(), State::fresh(), case.trays());
    state.height = 7;
    let ran = common::bench_with(&case.object, &mut store, &mut state, &mut trays, allowance);
    assert_eq!(ran, Ok(run.ran), "bench, seed {seed}");
    assert_eq!((&store, state), (&run.store, run.state), "bench, seed {seed}");
    assert_eq!(trays, run.trays, "bench, seed {seed}");
}

fn compare_map(case: &Case) {
    let (mut table, mut their_table) = ([FILL; 2_100], [FILL; 2_100]);
    let length = common::map(&case.object, &mut table);
    assert_eq!(
        length,
        LEVEL.map(&case.object, &mut their_table),
        "map, seed {}",
        case.seed
    );
    assert_eq!(table, their_table, "map, seed {}", case.seed);
}

#[derive(Default)]
struct Counts {
    decks: u32,
    halts: BTreeMap<u32, u32>,
    troubles: BTreeMap<Trouble, u32>,
    /// Of READs and of PRINTs.
    kinds: BTreeMap<(&'static str, bool), u32>,
    over_one_card: u32,
    over_one_line: u32,
    in_parts: u32,
}

fn compare(case: &Case, rng: &mut Rng, counts: &mut Counts) {
    let seed = case.seed;
    assert_eq!(common::check(&case.object), Ok(()), "seed {seed}");
    compare_map(case);
    let allowance = *rng.pick(&[30, STEPS, STEPS]);
    let left = run(case, allowance);
    compare_bench(case, allowance, &left);
    counts.in_parts += u32::from(run_in_parts(case, rng, allowance, &left));
    counts.decks += 1;
    counts.over_one_card += u32::from(left.trays.cards.taken() > 1);
    counts.over_one_line += u32::from(left.trays.lines.bytes().len() > luvinqata::LINE);
    *counts.halts.entry(left.ran.halt).or_default() += 1;
    for read in [true, false] {
        for kind in kinds(&case.deck, read) {
            *counts.kinds.entry((kind, read)).or_default() += 1;
        }
    }
    if left.ran.halt != 2 {
        compare_meaning(case, &left, counts);
    }
}

fn compare_meaning(case: &Case, left: &Left, counts: &mut Counts) {
    let seed = case.seed;
    let mut lent = case.lent();
    let outcome = interpret_lent(&case.deck, &case.named(&case.store), BUDGET, &mut lent);
    assert_eq!(
        (outcome.halt, outcome.first_loss),
        (left.ran.halt, left.ran.sequence),
        "meaning, seed {seed}"
    );
    assert_eq!(outcome.values, case.named(&left.store), "meaning, seed {seed}");
    assert!(common::used_alike(&left.trays, &lent), "meaning, seed {seed}");
    if let Some(trouble) = outcome.trouble {
        *counts.troubles.entry(trouble).or_default() += 1;
    }
}

#[test]
fn decks_read_and_print_as_the_independent_implementation_and_as_they_mean() {
    let mut counts = Counts::default();
    for seed in 0..DECKS {
        let mut rng = Rng::new(seed);
        if let Some(case) = case(seed, &mut rng) {
            compare(&case, &mut rng, &mut counts);
        }
    }
    show(&counts);

    let enough = |count: Option<&u32>| count.is_some_and(|count| *count >= LEAST);
    for halt in [0, 1, 2, 4, 9, 10] {
        assert!(enough(counts.halts.get(&halt)), "too few: halt {halt}");
    }
    for trouble in Trouble::ALL {
        assert!(enough(counts.troubles.get(&trouble)), "too few: {trouble:?}");
    }
    for kind in KINDS {
        for read in [true, false] {
            assert!(enough(counts.kinds.get(&(kind, read))), "too few: {kind}, READ {read}");
        }
    }
    assert_eq!(counts.kinds.len(), 2 * KINDS.len());
    for count in [counts.over_one_card, counts.over_one_line, counts.in_parts] {
        assert!(count >= LEAST);
    }
}

/// Written past the test's capture, so that a passing test shows it too.
fn show(counts: &Counts) {
    let mut out = stdout();
    let _ = writeln!(
        out,
        "\n{} decks with cards; halts {:?}, in READ and PRINT {:?}; {} took several cards, {} wrote several lines, {} did so in parts",
        counts.decks, counts.halts, counts.troubles, counts.over_one_card, counts.over_one_line, counts.in_parts
    );
    let _ = writeln!(out, "read and printed, in so many decks:");
    for kind in KINDS {
        let [read, printed] = [true, false].map(|read| counts.kinds.get(&(kind, read)).unwrap_or(&0));
        let _ = writeln!(out, "{read:7} {printed:7}  {kind}");
    }
}

/// Fields of every sort become the numbers, and the numbers the columns, that they were made to be.
#[test]
fn fields_are_what_they_were_made_to_be() {
    let mut seen: BTreeMap<&str, u32> = BTreeMap::new();
    for seed in 0..FIELDS {
        let told = told_deck(&mut Rng::new(seed));
        let (_, tables) = LEVEL.accept(told.made.k, &told.made.deck).expect("a right deck");
        let (mut store, mut trays) = (vec![-1; tables.cells as usize], Trays::new(&told.card, 1));
        let ran = common::run_with(&tables.to_bytes(), &mut store, &mut State::fresh(), &mut trays, 9);
        let ran = ran.expect("a right store");
        told.punched.iter().for_each(|sort| *seen.entry(sort).or_default() += 1);
        let Some(values) = told.values else {
            assert_eq!((ran.halt, ran.steps), (10, 1), "seed {seed}");
            assert_eq!(trays, Trays::new(&told.card, 1), "seed {seed}");
            assert!(store.iter().all(|cell| *cell == -1), "seed {seed}");
            continue;
        };
        told.printed.iter().for_each(|sort| *seen.entry(sort).or_default() += 1);
        assert_eq!((ran.halt, ran.steps, trays.cards.taken()), (1, 3, 1), "seed {seed}");
        assert_eq!(store, values, "seed {seed}");
        assert!(trays.lines.iter().eq([told.line.as_str()]), "seed {seed}");
    }
    assert_eq!(seen.len(), PUNCHED.len() + PRINTED.len());
    assert!(seen.values().all(|count| *count >= LEAST), "{seen:?}");
}
