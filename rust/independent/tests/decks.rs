//! Generated decks: the meaning against the machine, resumption, refusals, heights.

use std::collections::{BTreeMap, BTreeSet};

use independent::check::{heights, open};
use independent::compile::{accept, Deck};
use independent::generate::{self, Made, Rng};
use independent::interpret::{interpret, Values};
use independent::object::Tables;
use independent::reader::readings;
use independent::{bench, check, compile, run, Level, Ran, State};

const DECKS: u64 = 5_000;
const STEPS: u32 = 20_000;
/// Between two steps there are fewer than 401 statements, for a CONTINUE takes no step.
const BUDGET: u64 = STEPS as u64 * 401;
/// Longer than any object.
const ROOM: usize = 50_000;
const FILL: u8 = 0xA5;

fn decks() -> impl Iterator<Item = (u64, Rng, Made)> {
    (0..DECKS).map(|seed| {
        let mut rng = Rng::new(seed);
        let made = generate::deck(&mut rng);
        (seed, rng, made)
    })
}

/// The decks that are accepted.
fn accepted() -> impl Iterator<Item = (u64, Rng, Deck, Tables)> {
    decks().filter_map(|(seed, rng, made)| {
        let (deck, tables) = accept(made.k, &made.deck).ok()?;
        Some((seed, rng, deck, tables))
    })
}

/// The store's values by name.
fn named(tables: &Tables, store: &[i64]) -> Values {
    let cells = |first: u32, size: u64| store[first as usize..][..size as usize].to_vec();
    tables
        .names
        .iter()
        .map(|name| (name.text(), cells(name.first, name.size())))
        .collect()
}

#[test]
fn the_machine_does_what_the_statements_mean() {
    let mut halts: BTreeMap<u32, u32> = BTreeMap::new();
    let (mut losses, mut unfinished, mut long) = (0, 0, 0);
    for (seed, mut rng, deck, tables) in accepted() {
        let object = tables.to_bytes();
        let mut store = generate::store(&mut rng, deck.k(), tables.cells as usize);
        let start = named(&tables, &store);
        let ran = run(&object, &mut store, &mut State::fresh(), STEPS).unwrap();
        if ran.halt == 2 {
            unfinished += 1;
            continue;
        }
        let outcome = interpret(&deck, &start, BUDGET);
        assert_eq!(outcome.halt, ran.halt, "seed {seed}");
        assert_eq!(outcome.values, named(&tables, &store), "seed {seed}");
        assert_eq!(outcome.first_loss, ran.sequence, "seed {seed}");
        *halts.entry(ran.halt).or_default() += 1;
        losses += u32::from(ran.sequence > 0);
        long += u32::from(outcome.statements > 100);
    }
    // The comparison is of use only if all of these were met often.
    for halt in [0, 1, 3, 4, 5, 6] {
        assert!(halts.get(&halt).is_some_and(|count| *count >= 20), "{halts:?}");
    }
    let compared: u32 = halts.values().sum();
    println!("halts {halts:?}, with a loss {losses}, over 100 statements {long}, not finished {unfinished}");
    assert!(
        compared > 1_500 && losses > 300 && long > 100,
        "{compared} {losses} {long} {unfinished}"
    );
}

#[test]
fn a_run_in_parts_is_one_run() {
    let mut resumed = 0;
    for (seed, mut rng, deck, tables) in accepted() {
        let object = tables.to_bytes();
        let start = generate::store(&mut rng, deck.k(), tables.cells as usize);
        let (mut whole_store, mut whole_state) = (start.clone(), State::fresh());
        let allowance = rng.range(1, 600) as u32;
        let whole = run(&object, &mut whole_store, &mut whole_state, allowance).unwrap();

        let (mut store, mut state) = (start.clone(), State::fresh());
        let mut left = allowance;
        let last: Ran = loop {
            let part = rng.below(left as usize + 1) as u32;
            let part = if rng.chance(30) { left } else { part };
            let ran = run(&object, &mut store, &mut state, part).unwrap();
            left -= ran.steps;
            if ran.halt != 2 || part == left + ran.steps {
                break ran;
            }
            resumed += 1;
        };
        assert_eq!(
            (last.halt, allowance - left, last.sequence),
            (whole.halt, whole.steps, whole.sequence),
            "seed {seed}"
        );
        assert_eq!((&store, &state), (&whole_store, &whole_state), "seed {seed}");

        let mut bench_store = start;
        let benched = bench(&object, &mut bench_store, allowance).unwrap();
        assert_eq!(
            (benched, bench_store),
            ((whole, whole_state), whole_store),
            "seed {seed}"
        );
    }
    assert!(resumed > 1_000, "{resumed}");
}

#[test]
fn refusals_and_room() {
    let mut seen = BTreeSet::new();
    for (seed, _, made) in decks() {
        let mut out = vec![FILL; ROOM];
        let length = match compile(made.k, &made.deck, &mut out) {
            Ok(length) => length,
            Err(refusal) => {
                assert!(out.iter().all(|byte| *byte == FILL), "seed {seed}");
                assert_eq!(refusal.kind, 0);
                seen.insert(refusal.number);
                continue;
            }
        };
        assert!(out[length..].iter().all(|byte| *byte == FILL), "seed {seed}");
        let object = &out[..length];
        assert_eq!(check(object), Ok(()), "seed {seed}");
        let mut exact = vec![FILL; length];
        assert_eq!(compile(made.k, &made.deck, &mut exact), Ok(length));
        assert_eq!(exact, object);
        let mut short = vec![FILL; length - 1];
        let refusal = compile(made.k, &made.deck, &mut short).unwrap_err();
        assert_eq!((refusal.number, refusal.place, refusal.kind), (30, 0, 0));
        assert!(short.iter().all(|byte| *byte == FILL));
        for k in [0, 10, u32::MAX] {
            assert_eq!(compile(k, &made.deck, &mut exact).unwrap_err().number, 1);
        }
    }
    let all: BTreeSet<u32> = (2..=7).chain(10..=16).chain([18]).chain(20..=25).collect();
    assert_eq!(seen, all);
}

/// The generator keeps the rules where it means to, so what it makes must be accepted.
#[test]
fn ordinary_decks_are_accepted() {
    for seed in 0..2_000 {
        let made = generate::ordinary_deck(&mut Rng::new(seed));
        assert_eq!(accept(made.k, &made.deck).err(), None, "seed {seed}");
    }
}

/// At each limit the deck is accepted, and one over it is refused by the limit's number.
#[test]
fn limits_are_where_they_are() {
    let mut outcomes: BTreeMap<Option<u32>, u32> = BTreeMap::new();
    for seed in 0..1_000 {
        let (made, expected) = generate::judged_limit_deck(&mut Rng::new(seed));
        let number = accept(made.k, &made.deck).err().map(|refusal| refusal.number);
        assert_eq!(number, expected, "seed {seed}");
        *outcomes.entry(expected).or_default() += 1;
    }
    assert_eq!(
        outcomes.keys().copied().collect::<Vec<_>>(),
        [None, Some(2), Some(7), Some(13), Some(14), Some(18), Some(23)]
    );
    assert!(outcomes.values().all(|count| *count >= 10), "{outcomes:?}");
}

/// "A compiled deck with p levels of parentheses never stands above 2p+3."
#[test]
fn heights_stay_below_the_bound() {
    let mut deep = 0;
    for (seed, _, deck, tables) in accepted() {
        let levels = deck.levels();
        let table = heights(&tables).unwrap();
        let highest = table.into_iter().flatten().max().unwrap_or(0);
        assert!(usize::from(highest) <= 2 * levels + 3, "seed {seed}");
        deep += u32::from(levels > 2);
    }
    assert!(deep > 20, "{deep}");
}

/// A text is of one form at most, so there is no order of trying.
#[test]
fn no_text_is_of_two_forms() {
    let (mut none, mut one) = (0, 0);
    for seed in 0..20_000 {
        for text in generate::texts(Level::Cards, &mut Rng::new(seed)) {
            match readings(Level::Cards, 5, text.as_bytes()).len() {
                0 => none += 1,
                1 => one += 1,
                _ => panic!("{text} is of two forms"),
            }
        }
    }
    assert!(none > 1_000 && one > 100_000, "{none} {one}");
}

/// A text as long as cards allow, all parentheses, is read without trouble.
#[test]
fn the_deepest_text() {
    for (text, number) in [
        (format!("I={}", "(".repeat(658)), 10),
        (format!("I={}1{}", "(".repeat(328), ")".repeat(328)), 14),
    ] {
        let mut deck = Vec::new();
        for (index, part) in text.as_bytes().chunks(66).enumerate() {
            let mut card = [b' '; 80];
            card[5] = if index == 0 { b' ' } else { b'1' };
            card[6..6 + part.len()].copy_from_slice(part);
            deck.extend(card);
        }
        let refusal = compile(9, &deck, &mut []).unwrap_err();
        assert_eq!((refusal.number, refusal.place), (number, 1));
    }
}

/// Any bytes are taken.
#[test]
fn any_bytes_are_a_deck() {
    let mut cards = 0;
    for seed in 0..5_000 {
        let mut rng = Rng::new(seed);
        let length = if rng.chance(50) {
            80 * rng.below(6)
        } else {
            rng.below(500)
        };
        let set = b" 01IJ=+-*/$,(.)DOGT";
        let deck: Vec<u8> = (0..length)
            .map(|_| {
                if rng.chance(1) {
                    rng.below(256) as u8
                } else {
                    *rng.pick(set)
                }
            })
            .collect();
        let mut out = [FILL; 400];
        let refusal = compile(5, &deck, &mut out).unwrap_err();
        assert_eq!(refusal.number == 2, deck.is_empty() || deck.len() % 80 != 0);
        assert!(out.iter().all(|byte| *byte == FILL));
        cards += u32::from(refusal.number > 2);
    }
    assert!(cards > 1_000);
}

/// Compiled objects are the same bytes after being opened and written again.
#[test]
fn objects_open_and_close() {
    let count = accepted().filter(|(seed, _, _, tables)| {
        assert_eq!(open(&tables.to_bytes()).as_ref(), Ok(tables), "seed {seed}");
        true
    });
    assert!(count.count() > 2_000);
}
