//! Generated decks with READ, PRINT and FORMAT: the meaning against the machine, resumption, refusals.

use std::collections::{BTreeMap, BTreeSet};

use independent::compile::Deck;
use independent::generate::{self, Made, Rng};
use independent::interpret::{interpret_lent, Values};
use independent::kinds::{kinds, KINDS};
use independent::lent::Trouble;
use independent::object::{Edition, Tables};
use independent::{check, Lent, Level, State};

const LEVEL: Level = Level::Cards;
const DECKS: u64 = 6_000;
const STEPS: u32 = 10_000;
/// Between two steps there are fewer than 401 statements.
const BUDGET: u64 = STEPS as u64 * 401;
const OFTEN: u32 = 50;

fn decks() -> impl Iterator<Item = (u64, Rng, Made)> {
    (0..DECKS).map(|seed| {
        let mut rng = Rng::new(seed);
        let made = generate::deck_at(LEVEL, &mut rng);
        (seed, rng, made)
    })
}

fn accepted() -> impl Iterator<Item = (u64, Rng, Deck, Tables)> {
    decks().filter_map(|(seed, rng, made)| {
        let (deck, tables) = LEVEL.accept(made.k, &made.deck).ok()?;
        Some((seed, rng, deck, tables))
    })
}

/// The store's values by name.
fn named(tables: &Tables, store: &[i64]) -> Values {
    let cells = |first: u32, size: u64| store[first as usize..][..size as usize].to_vec();
    tables
        .names
        .iter()
        .map(|name| (name.text(), cells(name.first, name.size())))
        .collect()
}

fn room(rng: &mut Rng) -> usize {
    *rng.pick(&[0, 1, 2, 5, 40, 200, 200, 200])
}

#[test]
fn the_machine_reads_and_prints_what_the_statements_mean() {
    let (mut halts, mut troubles) = (BTreeMap::<u32, u32>::new(), BTreeMap::<Trouble, u32>::new());
    let (mut taken, mut written) = (0, 0);
    for (seed, mut rng, deck, tables) in accepted() {
        let mut store = generate::store(&mut rng, deck.k(), tables.cells as usize);
        let start = named(&tables, &store);
        let (cards, room) = (generate::cards(&mut rng), room(&mut rng));
        let (mut lent, mut meant) = (Lent::new(&cards, room), Lent::new(&cards, room));
        let ran = LEVEL
            .run(&tables.to_bytes(), &mut store, &mut State::fresh(), STEPS, &mut lent)
            .unwrap();
        if ran.halt == 2 {
            continue;
        }
        let outcome = interpret_lent(&deck, &start, BUDGET, &mut meant);
        assert_eq!(
            (outcome.halt, outcome.first_loss),
            (ran.halt, ran.sequence),
            "seed {seed}"
        );
        assert_eq!(outcome.values, named(&tables, &store), "seed {seed}");
        assert_eq!(meant, lent, "seed {seed}");
        *halts.entry(ran.halt).or_default() += 1;
        if let Some(trouble) = outcome.trouble {
            *troubles.entry(trouble).or_default() += 1;
        }
        taken += u32::from(lent.taken() > 1);
        written += u32::from(lent.lines().len() > 1);
    }
    println!("halts {halts:?}, {troubles:?}, over one card {taken}, over one line {written}");
    for halt in [0, 1, 4, 9, 10] {
        assert!(halts[&halt] >= OFTEN, "{halts:?}");
    }
    for trouble in Trouble::ALL {
        assert!(
            troubles.get(&trouble).is_some_and(|count| *count >= OFTEN),
            "{troubles:?}"
        );
    }
    assert!(taken >= OFTEN && written >= OFTEN, "{taken} {written}");
}

/// "to go on after halt 2 the caller lends the rest".
#[test]
fn a_run_in_parts_is_lent_the_rest() {
    let mut parted = 0;
    for (seed, mut rng, deck, tables) in accepted() {
        let object = tables.to_bytes();
        let start = generate::store(&mut rng, deck.k(), tables.cells as usize);
        let (cards, room) = (generate::cards(&mut rng), room(&mut rng));
        let allowance = rng.range(1, 30) as u32;
        let (mut whole_store, mut whole_state) = (start.clone(), State::fresh());
        let mut whole_lent = Lent::new(&cards, room);
        let whole = LEVEL
            .run(&object, &mut whole_store, &mut whole_state, allowance, &mut whole_lent)
            .unwrap();

        let (mut store, mut state) = (start.clone(), State::fresh());
        let first_allowance = rng.below(allowance as usize + 1) as u32;
        let mut lent = Lent::new(&cards, room);
        let mut ran = LEVEL
            .run(&object, &mut store, &mut state, first_allowance, &mut lent)
            .unwrap();
        let (mut taken, mut lines) = (lent.taken(), lent.lines().to_vec());
        if ran.halt == 2 {
            let (cards_left, room_left) = lent.rest();
            let mut rest = Lent::new(cards_left, room_left);
            let steps = ran.steps;
            ran = LEVEL
                .run(&object, &mut store, &mut state, allowance - first_allowance, &mut rest)
                .unwrap();
            ran.steps += steps;
            taken += rest.taken();
            lines.extend(rest.lines());
            parted += u32::from(rest.taken() + rest.lines().len() > 0);
        }
        assert_eq!(
            (ran, &store, &state),
            (whole, &whole_store, &whole_state),
            "seed {seed}"
        );
        assert_eq!(
            (taken, &lines[..]),
            (whole_lent.taken(), whole_lent.lines()),
            "seed {seed}"
        );
    }
    assert!(parted > 200, "{parted}");
}

#[test]
fn a_bench_run_of_a_compiled_deck_is_a_run() {
    for (seed, mut rng, deck, tables) in accepted() {
        let object = tables.to_bytes();
        let start = generate::store(&mut rng, deck.k(), tables.cells as usize);
        let (cards, room) = (generate::cards(&mut rng), room(&mut rng));
        let (mut store, mut state, mut lent) = (start.clone(), State::fresh(), Lent::new(&cards, room));
        let ran = LEVEL.run(&object, &mut store, &mut state, 100, &mut lent).unwrap();
        let (mut bench_store, mut bench_lent) = (start, Lent::new(&cards, room));
        let benched = LEVEL.bench(&object, &mut bench_store, 100, &mut bench_lent).unwrap();
        assert_eq!(benched, (ran, state), "seed {seed}");
        assert_eq!((bench_store, bench_lent), (store, lent), "seed {seed}");
    }
}

#[test]
fn refusals_of_decks_with_cards() {
    let mut seen: BTreeMap<u32, u32> = BTreeMap::new();
    for (seed, _, made) in decks() {
        match LEVEL.accept(made.k, &made.deck) {
            Err(refusal) => *seen.entry(refusal.number).or_default() += 1,
            Ok((_, tables)) => {
                let object = tables.to_bytes();
                assert_eq!(tables.edition, Edition::Two, "seed {seed}");
                assert_eq!(LEVEL.check(&object), Ok(()), "seed {seed}");
                assert_eq!(LEVEL.open(&object), Ok(tables), "seed {seed}");
                // "a base checker refuses it by 40"
                assert_eq!(check(&object).unwrap_err().number, 40, "seed {seed}");
            }
        }
    }
    println!("{seen:?}");
    let all: BTreeSet<u32> = (2..=7).chain(10..=18).chain(20..=25).collect();
    assert_eq!(seen.keys().copied().collect::<BTreeSet<u32>>(), all);
    for number in [17, 22] {
        assert!(seen[&number] >= OFTEN, "{seen:?}");
    }
}

/// A deck of the base means the same, and the base refuses what is new by 10.
#[test]
fn a_deck_of_the_base_stays_what_it_is() {
    for seed in 0..1_000 {
        let made = generate::deck(&mut Rng::new(seed));
        let (base, cards) = (Level::Base.accept(made.k, &made.deck), LEVEL.accept(made.k, &made.deck));
        assert_eq!(base.as_ref().err(), cards.as_ref().err(), "seed {seed}");
        let (Ok((deck, base)), Ok((same, cards))) = (base, cards) else {
            continue;
        };
        assert_eq!(deck, same, "seed {seed}");
        assert_eq!(base.bodies(), cards.bodies()[..7], "seed {seed}");
    }
}

#[test]
fn ordinary_decks_with_cards_are_accepted() {
    for seed in 0..3_000 {
        let made = generate::ordinary_deck_at(LEVEL, &mut Rng::new(seed));
        assert_eq!(LEVEL.accept(made.k, &made.deck).err(), None, "seed {seed}");
    }
}

#[test]
fn every_kind_of_field_and_item_is_read_and_printed() {
    let mut seen: BTreeMap<(bool, &str), u32> = BTreeMap::new();
    for (_, _, deck, _) in accepted() {
        for read in [true, false] {
            for kind in kinds(&deck, read) {
                *seen.entry((read, kind)).or_default() += 1;
            }
        }
    }
    println!("{seen:?}");
    for kind in KINDS {
        for read in [true, false] {
            assert!(
                seen.get(&(read, kind)).is_some_and(|count| *count >= OFTEN),
                "{kind} {read}: {seen:?}"
            );
        }
    }
    assert_eq!(seen.len(), 2 * KINDS.len());
}
