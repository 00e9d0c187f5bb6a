//! Damaged objects, stores and states: every answer equals the independent implementation's, with cards and lines lent.

mod common;

use std::collections::BTreeMap;
use std::io::{stdout, Write};

use common::LEVEL;
use independent::check::judge;
use independent::generate::{self, Rng};
use independent::reason::{self, CARD_REASONS, REASONS};
use independent::{Lent, Level, Ran, Refusal, State};
use luvinqata::Trays;

/// Of objects of the base.
const CASES: u64 = 48_000;
/// Of objects most of which are of edition 2.
const CARD_CASES: u64 = 60_000;
/// At least so many of each reason and each halt.
const LEAST: u32 = 100;
const STEPS: u32 = 300;
const FILL: u8 = 0xA5;

struct Case {
    seed: u64,
    object: Vec<u8>,
    store: Vec<i64>,
    state: State,
    cards: Vec<u8>,
    room: usize,
    allowance: u32,
}

/// One case of four has a sound object, so that its store and state are judged.
fn case(level: Level, seed: u64) -> Case {
    let mut rng = Rng::new(seed);
    let object = match seed % 4 {
        0 => generate::sound_object_at(level, &mut rng),
        1 => generate::broken_object_at(level, &mut rng),
        _ => {
            let object = common::object(level, &mut rng);
            generate::damaged_object(&mut rng, &object)
        }
    };
    let tables = LEVEL.open(&object).ok();
    let (k, cells) = tables.as_ref().map_or((1, 3), |t| (t.k, t.cells as usize));
    let heights = tables.as_ref().and_then(|t| judge(t).ok());
    let state = match &heights {
        None => generate::state(&mut rng, k, 4),
        Some(heights) => match rng.below(10) {
            0..=2 => State::fresh(),
            3..=5 => generate::right_state(&mut rng, k, heights),
            _ => generate::broken_state(&mut rng, k, heights),
        },
    };
    let mut store = match rng.below(10) {
        0..=2 => generate::broken_store(&mut rng, k, cells),
        _ => generate::store(&mut rng, k, cells + 2),
    };
    for past in store.iter_mut().skip(cells) {
        *past = *rng.pick(&[0, 100_000, i64::MAX, i64::MIN]);
    }
    let (cards, room) = (generate::cards(&mut rng), *rng.pick(&[0, 1, 5, 100]));
    let mut case = Case {
        seed,
        object,
        store,
        state,
        cards,
        room,
        allowance: STEPS,
    };
    match rng.below(6) {
        0 => case.allowance = rng.below(4) as u32,
        1 if halts(&case) => case.allowance = u32::MAX,
        _ => {}
    }
    case
}

/// Whether run and bench run come to an end by themselves.
fn halts(case: &Case) -> bool {
    let mut state = case.state;
    let lent = || Lent::new(&case.cards, case.room);
    let run = LEVEL.run(&case.object, &mut case.store.clone(), &mut state, STEPS, &mut lent());
    let bench = LEVEL.bench(&case.object, &mut case.store.clone(), STEPS, &mut lent());
    run.map_or(true, |ran| ran.halt != 2) && bench.map_or(true, |(ran, _)| ran.halt != 2)
}

#[derive(Default)]
struct Counts {
    answers: u32,
    passed: u32,
    reasons: BTreeMap<&'static str, u32>,
    run_halts: BTreeMap<u32, u32>,
    bench_halts: BTreeMap<u32, u32>,
}

fn compare(case: &Case, counts: &mut Counts) {
    let seed = case.seed;
    let checked = common::check(&case.object);
    assert_eq!(checked, LEVEL.check(&case.object), "check, seed {seed}");
    counts.passed += u32::from(checked.is_ok());

    let ran = compare_run(case);
    ran.iter()
        .for_each(|ran| *counts.run_halts.entry(ran.halt).or_default() += 1);
    let benched = compare_bench(case);
    benched
        .iter()
        .for_each(|ran| *counts.bench_halts.entry(ran.halt).or_default() += 1);
    if let (Ok(()), Ok(ran)) = (checked, benched) {
        assert!(![7, 8].contains(&ran.halt), "seed {seed}");
    }
    compare_map(case);
    counts.answers += 4;

    let reasons = reason::of_run_at(LEVEL, &case.object, &case.store, &case.state);
    if let [reason] = reasons[..] {
        let number = ran.map_or_else(|refusal| refusal.number, |_| 0);
        assert!(
            reason.starts_with(&number.to_string()),
            "seed {seed}: {number}, {reason}"
        );
        *counts.reasons.entry(reason).or_default() += 1;
    }
    if reason::unreachable(&case.object) {
        *counts.reasons.entry("43 in unreachable code").or_default() += 1;
    }
}

fn compare_run(case: &Case) -> Result<Ran, Refusal> {
    let Case { seed, allowance, .. } = *case;
    let (mut store, mut state) = (case.store.clone(), case.state);
    let mut trays = Trays::new(&case.cards, case.room);
    let answer = common::run_with(&case.object, &mut store, &mut state, &mut trays, allowance);
    let (mut their_store, mut their_state) = (case.store.clone(), case.state);
    let mut lent = Lent::new(&case.cards, case.room);
    let theirs = LEVEL.run(&case.object, &mut their_store, &mut their_state, allowance, &mut lent);
    assert_eq!(answer, theirs, "run, seed {seed}");
    assert_eq!((&store, state), (&their_store, their_state), "run, seed {seed}");
    assert!(common::used_alike(&trays, &lent), "run, seed {seed}");
    if answer.is_err() {
        assert_eq!((&store, state), (&case.store, case.state), "run, seed {seed}");
        assert_eq!(trays, Trays::new(&case.cards, case.room), "run, seed {seed}");
    }
    answer
}

fn compare_bench(case: &Case) -> Result<Ran, Refusal> {
    let Case { seed, allowance, .. } = *case;
    let (mut store, mut state) = (case.store.clone(), case.state);
    let mut trays = Trays::new(&case.cards, case.room);
    let answer = common::bench_with(&case.object, &mut store, &mut state, &mut trays, allowance);
    let mut their_store = case.store.clone();
    let mut lent = Lent::new(&case.cards, case.room);
    let theirs = LEVEL.bench(&case.object, &mut their_store, allowance, &mut lent);
    assert_eq!(answer, theirs.map(|(ran, _)| ran), "bench, seed {seed}");
    // On a refusal all are as they were lent.
    let their_state = theirs.map_or(case.state, |(_, after)| after);
    assert_eq!((&store, state), (&their_store, their_state), "bench, seed {seed}");
    assert!(common::used_alike(&trays, &lent), "bench, seed {seed}");
    if answer.is_err() {
        assert_eq!(store, case.store, "bench, seed {seed}");
        assert_eq!(trays, Trays::new(&case.cards, case.room), "bench, seed {seed}");
    }
    answer
}

fn compare_map(case: &Case) {
    let names = 20 * LEVEL.open(&case.object).map_or(1, |t| t.names.len());
    let room = [names.saturating_sub(1), names, names + 5][case.seed as usize / 4 % 3];
    let (mut table, mut their_table) = (vec![FILL; room], vec![FILL; room]);
    let answer = common::map(&case.object, &mut table);
    assert_eq!(
        answer,
        LEVEL.map(&case.object, &mut their_table),
        "map, seed {}",
        case.seed
    );
    assert_eq!(table, their_table, "map, seed {}", case.seed);
    if answer.is_err() {
        assert_eq!(table, vec![FILL; room], "map, seed {}", case.seed);
    }
}

/// Written past the test's capture, so that a passing test shows it too.
fn show(cases: u64, reasons: &[&str], counts: &Counts) {
    let mut out = stdout();
    let damaged = cases - cases.div_ceil(4);
    let _ = writeln!(
        out,
        "\n{damaged} damaged objects and {} sound ones, {} passed the check, {} answers compared",
        cases - damaged,
        counts.passed,
        counts.answers
    );
    let _ = writeln!(
        out,
        "halts of run {:?}\nhalts of bench {:?}",
        counts.run_halts, counts.bench_halts
    );
    let _ = writeln!(out, "refusals with one reason only:");
    for reason in reasons {
        let _ = writeln!(out, "{:7}  {reason}", counts.reasons.get(reason).unwrap_or(&0));
    }
}

fn compare_all(level: Level, cases: u64, reasons: &[&str]) -> Counts {
    let mut counts = Counts::default();
    (0..cases).for_each(|seed| compare(&case(level, seed), &mut counts));
    show(cases, reasons, &counts);
    for reason in reasons {
        assert!(
            counts.reasons.get(reason).is_some_and(|count| *count >= LEAST),
            "too few: {reason}"
        );
    }
    counts
}

fn enough(halts: &BTreeMap<u32, u32>, numbers: impl IntoIterator<Item = u32>) -> bool {
    let often = |halt| halts.get(&halt).is_some_and(|count| *count >= LEAST);
    numbers.into_iter().all(often)
}

#[test]
fn answers_are_the_independent_ones() {
    let counts = compare_all(Level::Base, CASES, &REASONS);
    assert!(enough(&counts.run_halts, 0..=6) && enough(&counts.bench_halts, 0..=8));
    assert_eq!(counts.reasons.len(), REASONS.len());
}

#[test]
fn answers_with_cards_are_the_independent_ones() {
    let counts = compare_all(LEVEL, CARD_CASES, &CARD_REASONS);
    assert!(enough(&counts.run_halts, [4, 9, 10]) && enough(&counts.bench_halts, [4, 7, 8, 9, 10]));
}
