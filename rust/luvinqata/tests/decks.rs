//! Generated decks: compile, check, map and run answer as the independent implementation does, and a run ends as the
//! deck's statements say by themselves. `LUVINQATA_CASES` sets how many.

mod common;
mod seen;

use std::collections::BTreeMap;
use std::io::{stdout, Write};
use std::thread;

use independent::compile::{accept, Deck};
use independent::generate::{self, Faulty, Made, Rng};
use independent::interpret::{interpret, Values};
use independent::{Ran, State};
use luvinqata::{Store, LONGEST_OBJECT};
use seen::FEATURES;

const CASES: u64 = 40_000;
/// At least so many of each reason, halt and feature, if there are so many cases; of fewer, chance may leave some out.
const LEAST: u32 = 50;
/// A run that has not halted by then is taken not to halt.
const STEPS: u32 = 20_000;
/// Between two steps there are fewer than 401 statements, for a CONTINUE takes no step.
const BUDGET: u64 = STEPS as u64 * 401;
/// Enough of a deck that does not halt.
const TASTE: u64 = 2_000;
const FILL: u8 = 0xA5;

#[derive(Default)]
struct Counts {
    cases: u32,
    compiled: u32,
    losses: u32,
    reasons: BTreeMap<String, u32>,
    /// Refusals of decks that may have several faults, by number.
    several: BTreeMap<u32, u32>,
    halts: BTreeMap<u32, u32>,
    features: BTreeMap<&'static str, u32>,
}

impl Counts {
    fn add(&mut self, other: Counts) {
        fn sum<K: Ord>(to: &mut BTreeMap<K, u32>, from: BTreeMap<K, u32>) {
            from.into_iter()
                .for_each(|(key, count)| *to.entry(key).or_default() += count);
        }
        self.cases += other.cases;
        self.compiled += other.compiled;
        self.losses += other.losses;
        sum(&mut self.reasons, other.reasons);
        sum(&mut self.several, other.several);
        sum(&mut self.halts, other.halts);
        sum(&mut self.features, other.features);
    }
}

/// Nine of twenty have one fault; the others are right, near a limit, damaged in some way, or with several faults.
fn case(seed: u64, rng: &mut Rng) -> (Made, Option<Faulty>) {
    let made = match seed % 20 {
        turn @ 0..=8 => {
            let reason = (seed / 20 * 9 + turn) as usize % generate::deck_reasons();
            let faulty = generate::faulty_deck(rng, reason);
            return (faulty.made.clone(), Some(faulty));
        }
        9..=12 => generate::ordinary_deck(rng),
        14..=15 => generate::limit_deck(rng),
        16 => generate::slipping_deck(rng),
        17 => generate::misspelt_deck(rng),
        18 => {
            let Made { k, deck } = generate::ordinary_deck(rng);
            let deck = generate::damaged_deck(rng, &deck);
            Made { k, deck }
        }
        _ => generate::crowded_deck(rng),
    };
    (made, None)
}

fn compare(seed: u64, counts: &mut Counts) {
    let mut rng = Rng::new(seed);
    let (made, faulty) = case(seed, &mut rng);
    counts.cases += 1;
    let object = compare_compile(seed, &mut rng, &made, counts);
    if let Some(faulty) = faulty {
        let refusal = object.as_ref().expect_err("a deck with a fault");
        assert_eq!(
            (refusal.number, refusal.place),
            (faulty.number(), faulty.place),
            "seed {seed}: {}",
            faulty.reason
        );
        *counts.reasons.entry(faulty.reason).or_default() += 1;
    } else if let Err(refusal) = object {
        *counts.several.entry(refusal.number).or_default() += 1;
    }
    let Ok(object) = object else { return };
    counts.compiled += 1;
    let (deck, tables) = accept(made.k, &made.deck).expect("it was compiled");
    for feature in seen::features(&made.deck, &deck, &tables) {
        *counts.features.entry(feature).or_default() += 1;
    }
    assert_eq!(common::check(&object), Ok(()), "seed {seed}");
    compare_map(seed, &object, counts);
    compare_run(seed, &mut rng, &object, &deck, counts);
}

/// The object, compiled with room to spare; compared again with less room, down to none.
fn compare_compile(
    seed: u64,
    rng: &mut Rng,
    made: &Made,
    counts: &mut Counts,
) -> Result<Vec<u8>, independent::Refusal> {
    let compared = |room: usize| {
        let (mut ours, mut theirs) = (vec![FILL; room], vec![FILL; room]);
        let answer = common::compile(made.k, &made.deck, &mut ours);
        assert_eq!(
            answer,
            independent::compile(made.k, &made.deck, &mut theirs),
            "compile, seed {seed}"
        );
        assert_eq!(ours, theirs, "compile, seed {seed}");
        let kept = answer.unwrap_or(0);
        assert!(ours[kept..].iter().all(|byte| *byte == FILL), "compile, seed {seed}");
        answer.map(|length| ours[..length].to_vec())
    };
    let object = compared(LONGEST_OBJECT);
    let length = object.as_ref().map_or(100, Vec::len);
    let (reason, room) = *rng.pick(&[
        ("", length),
        ("30 no room", 0),
        ("30 one byte short", length - 1),
        ("30 shorter", length / 2),
    ]);
    let again = compared(room);
    if object.is_ok() {
        assert_eq!(again.is_ok(), reason.is_empty(), "seed {seed}");
        if let Err(refusal) = again {
            assert_eq!(refusal, independent::Refusal::whole(30), "seed {seed}");
            *counts.reasons.entry(reason.to_string()).or_default() += 1;
        }
    }
    object
}

/// Body 7 to a table that is long enough and to one that is a byte too short.
fn compare_map(seed: u64, object: &[u8], counts: &mut Counts) {
    let mut table = [FILL; 2_100];
    let length = common::map(object, &mut table).expect("a compiled object");
    let mut theirs = [FILL; 2_100];
    assert_eq!(independent::map(object, &mut theirs), Ok(length), "seed {seed}");
    assert_eq!(table, theirs, "map, seed {seed}");
    if length > 0 {
        let mut short = vec![FILL; length - 1];
        let refused = common::map(object, &mut short);
        assert_eq!(refused, Err(independent::Refusal::whole(30)), "seed {seed}");
        assert!(short.iter().all(|byte| *byte == FILL), "seed {seed}");
        *counts.features.entry(seen::SHORT_MAP).or_default() += 1;
    }
}

/// A run in one or two parts: with the independent machine part by part, and with the meaning at its end.
fn compare_run(seed: u64, rng: &mut Rng, object: &[u8], deck: &Deck, counts: &mut Counts) {
    let mut store = Store::new(object).expect("a compiled object");
    let cells = store.cells().len();
    store
        .cells_mut()
        .copy_from_slice(&generate::store(rng, deck.k(), cells));
    let start = named(&store);
    let (mut state, mut their_store, mut their_state) = (State::fresh(), store.cells().to_vec(), State::fresh());
    let mut part = |store: &mut Store, allowance: u32| -> Ran {
        let ours = common::run(object, store.cells_mut(), &mut state, allowance);
        let theirs = independent::run(object, &mut their_store, &mut their_state, allowance);
        assert_eq!(ours, theirs, "run, seed {seed}");
        assert_eq!(
            (store.cells(), state),
            (&their_store[..], their_state),
            "run, seed {seed}"
        );
        ours.expect("a right store and state")
    };
    let first = *rng.pick(&[0, 1, 7, 50, STEPS, STEPS]);
    let mut ran = part(&mut store, first);
    if ran.halt == 2 && first < STEPS {
        ran = part(&mut store, STEPS - first);
    }
    let outcome = interpret(deck, &start, if ran.halt == 2 { TASTE } else { BUDGET });
    if ran.halt == 2 && outcome.halt != 2 {
        // Few statements, but of many steps.
        ran = part(&mut store, u32::MAX);
    }
    *counts.halts.entry(ran.halt).or_default() += 1;
    if ran.halt == 2 {
        assert_eq!(outcome.halt, 2, "seed {seed}");
        return;
    }
    assert_eq!(
        (outcome.halt, outcome.first_loss),
        (ran.halt, ran.sequence),
        "meaning, seed {seed}"
    );
    assert_eq!(outcome.values, named(&store), "meaning, seed {seed}");
    counts.losses += u32::from(ran.sequence > 0);
}

/// The store's values by name.
fn named(store: &Store) -> Values {
    let values = |first: usize, size: usize| store.cells()[first..first + size].to_vec();
    store
        .names()
        .iter()
        .map(|name| (name.text.clone(), values(name.first, name.size())))
        .collect()
}

#[test]
fn decks_answer_as_the_independent_implementation_and_as_they_mean() {
    let cases = std::env::var("LUVINQATA_CASES").map_or(CASES, |count| count.parse().expect("a number of cases"));
    let mut counts = Counts::default();
    let part = |from: u64| {
        let mut counts = Counts::default();
        (from..cases).step_by(2).for_each(|seed| compare(seed, &mut counts));
        counts
    };
    thread::scope(|scope| {
        let halves = [scope.spawn(move || part(0)), scope.spawn(move || part(1))];
        halves
            .into_iter()
            .for_each(|half| counts.add(half.join().expect("no difference")));
    });
    show(&counts);

    assert_eq!(u64::from(counts.cases), cases);
    if cases < CASES {
        return;
    }
    let enough = |count: Option<&u32>| count.is_some_and(|count| *count >= LEAST);
    assert_eq!(counts.reasons.len(), generate::deck_reasons() + 3);
    if let Some((reason, _)) = counts.reasons.iter().find(|(_, count)| !enough(Some(count))) {
        panic!("too few: {reason}");
    }
    assert!(
        (0..=6).all(|halt| enough(counts.halts.get(&halt))),
        "{:?}",
        counts.halts
    );
    for feature in FEATURES {
        assert!(enough(counts.features.get(feature)), "too few: {feature}");
    }
}

/// Written past the test's capture, so that a passing test shows it too.
fn show(counts: &Counts) {
    let mut out = stdout();
    let _ = writeln!(
        out,
        "\n{} decks, {} compiled; halts {:?}, {} with a loss",
        counts.cases, counts.compiled, counts.halts, counts.losses
    );
    let mut reasons: Vec<(u32, &String, &u32)> = counts
        .reasons
        .iter()
        .map(|(reason, count)| (common::number_of(reason), reason, count))
        .collect();
    reasons.sort();
    let _ = writeln!(out, "refusals of decks with one fault, by reason:");
    reasons
        .iter()
        .for_each(|(_, reason, count)| drop(writeln!(out, "{count:7}  {reason}")));
    let _ = writeln!(out, "refusals of the other decks, by number: {:?}", counts.several);
    let _ = writeln!(out, "met in compiled decks:");
    FEATURES.iter().for_each(|feature| {
        let count = counts.features.get(feature).unwrap_or(&0);
        drop(writeln!(out, "{count:7}  {feature}"));
    });
}
