//! Objects of edition 2, sound, made up and damaged: the checker's numbers and reasons, and bench runs beside runs.

use std::collections::{BTreeMap, BTreeSet};

use independent::check::judge;
use independent::generate::{self, Rng};
use independent::object::{pack, word, Edition, ElementEntry, ItemEntry, SubscriptEntry, Tables, TransferEntry};
use independent::operation::{HLT, PRINT};
use independent::reason::{of_run_at, CARD_REASONS, REASONS};
use independent::{Lent, Level, Refusal, State};

const LEVEL: Level = Level::Cards;
const OBJECTS: u64 = 20_000;
const STEPS: u32 = 300;
const OFTEN: u32 = 50;

fn objects() -> impl Iterator<Item = (u64, Rng, Vec<u8>)> {
    (0..OBJECTS).map(|seed| {
        let mut rng = Rng::new(seed);
        let mut object = match rng.below(10) {
            0..=2 => generate::sound_object_at(LEVEL, &mut rng),
            3..=6 => generate::made_object_at(LEVEL, &mut rng),
            _ => compiled(&mut rng),
        };
        if rng.chance(60) {
            object = generate::damaged_object(&mut rng, &object);
        }
        (seed, rng, object)
    })
}

fn compiled(rng: &mut Rng) -> Vec<u8> {
    let made = generate::ordinary_deck_at(LEVEL, rng);
    let (_, tables) = LEVEL.accept(made.k, &made.deck).unwrap();
    tables.to_bytes()
}

#[test]
fn the_checker_gives_every_number_and_kind() {
    let mut seen: BTreeMap<(u32, u32), u32> = BTreeMap::new();
    for (_, _, object) in objects() {
        let refusal = LEVEL.check(&object).err().unwrap_or(Refusal::whole(0));
        *seen.entry((refusal.number, refusal.kind)).or_default() += 1;
    }
    println!("{seen:?}");
    let kinds = [1, 2, 4, 6, 7, 8, 9, 10].map(|kind| (42, kind));
    let expected: BTreeSet<(u32, u32)> = [(0, 0), (40, 0), (41, 0), (43, 5), (44, 0)]
        .into_iter()
        .chain(kinds)
        .collect();
    assert_eq!(seen.keys().copied().collect::<BTreeSet<_>>(), expected);
    assert!(seen.values().all(|count| *count >= OFTEN), "{seen:?}");
}

/// "On an object that passes the check it never gives 7 or 8 and equals the run from a fresh state."
#[test]
fn bench_runs_with_cards() {
    let mut halts: BTreeMap<u32, u32> = BTreeMap::new();
    for (seed, mut rng, object) in objects() {
        let (k, cells) = LEVEL.open(&object).map_or((1, 3), |t| (t.k, t.cells as usize));
        let start = generate::store(&mut rng, k, cells);
        let cards = generate::cards(&mut rng);
        let room = *rng.pick(&[0, 1, 5, 100]);
        let (mut bench_store, mut bench_lent) = (start.clone(), Lent::new(&cards, room));
        let Ok((ran, after)) = LEVEL.bench(&object, &mut bench_store, STEPS, &mut bench_lent) else {
            assert!(
                [40, 41].contains(&LEVEL.check(&object).unwrap_err().number),
                "seed {seed}"
            );
            assert_eq!(
                (bench_store, bench_lent),
                (start, Lent::new(&cards, room)),
                "seed {seed}"
            );
            continue;
        };
        *halts.entry(ran.halt).or_default() += 1;
        let (mut store, mut state, mut lent) = (start.clone(), State::fresh(), Lent::new(&cards, room));
        match LEVEL.run(&object, &mut store, &mut state, STEPS, &mut lent) {
            Ok(same) => {
                assert!(![7, 8].contains(&ran.halt), "seed {seed}");
                assert_eq!((same, state, store), (ran, after, bench_store), "seed {seed}");
                assert_eq!(lent, bench_lent, "seed {seed}");
            }
            Err(refusal) => {
                assert_eq!(LEVEL.check(&object), Err(refusal), "seed {seed}");
                assert_eq!((state, store), (State::fresh(), start), "seed {seed}");
                assert_eq!(lent, Lent::new(&cards, room), "seed {seed}");
            }
        }
    }
    println!("{halts:?}");
    assert_eq!(halts.keys().copied().collect::<Vec<_>>(), (0..=10).collect::<Vec<_>>());
    assert!(halts.values().all(|count| *count >= OFTEN), "{halts:?}");
}

#[test]
fn every_refusal_has_its_reason() {
    let mut met: BTreeMap<&str, u32> = BTreeMap::new();
    for seed in 0..OBJECTS {
        let mut rng = Rng::new(seed);
        let broken = rng.chance(80);
        let object = match broken {
            true => generate::broken_object_at(LEVEL, &mut rng),
            false => generate::sound_object_at(LEVEL, &mut rng),
        };
        assert_eq!(LEVEL.check(&object).is_err(), broken, "seed {seed}");
        let tables = LEVEL.open(&object).ok();
        let (k, cells) = tables.as_ref().map_or((1, 1), |t| (t.k, t.cells as usize));
        let store = generate::store(&mut rng, k, cells);
        let heights = tables.and_then(|t| judge(&t).ok());
        let state = heights.map_or(State::fresh(), |heights| generate::broken_state(&mut rng, k, &heights));
        let lent = &mut Lent::nothing();
        let answer = LEVEL.run(&object, &mut store.clone(), &mut state.clone(), 9, lent);
        let number = answer.map_or_else(|refusal| refusal.number, |_| 0);
        let reasons = of_run_at(LEVEL, &object, &store, &state);
        assert_eq!(reasons.is_empty(), number == 0, "seed {seed}");
        for reason in reasons {
            assert!(reason.starts_with(&number.to_string()), "seed {seed}: {reason}");
            assert!(REASONS.contains(&reason) || CARD_REASONS.contains(&reason), "{reason}");
            *met.entry(reason).or_default() += 1;
        }
    }
    println!("{met:?}");
    for reason in CARD_REASONS {
        assert!(
            met.get(reason).is_some_and(|count| *count >= OFTEN),
            "{reason}: {met:?}"
        );
    }
}

/// Six cells, an element, three FORMATs of which the second has no I, two items and a transfer of both.
fn small() -> Tables {
    let mut t = Tables::empty_of(Edition::Two, 5);
    let one = SubscriptEntry {
        multiplier: 0,
        cell: 0,
        addend: 1,
    };
    t.cells = 6;
    t.elements = vec![ElementEntry {
        base: 1,
        rows: 2,
        columns: 2,
        subscripts: [one, one],
    }];
    t.code = vec![pack(PRINT, 0), pack(HLT, 0)];
    t.words = vec![
        pack(word::NUMBER, 5),
        pack(word::TEXT, 32),
        pack(word::END, 0),
        pack(word::BLANKS, 1),
        pack(word::END, 3),
        pack(word::SLASH, 0),
        pack(word::NUMBER, 1),
        pack(word::END, 6),
    ];
    t.items = vec![ItemEntry { first: 0, count: 6 }, ItemEntry { first: 0, count: 0 }];
    t.transfers = vec![TransferEntry {
        format: 5,
        first: 0,
        count: 2,
    }];
    t
}

/// The object with one word of an entry of a body changed.
fn with_word(kind: usize, entry: usize, word: usize, value: u32) -> Vec<u8> {
    let tables = small();
    let before: usize = tables.bodies()[..kind - 1].iter().map(Vec::len).sum();
    let at = Edition::Two.contents_bytes() + before + entry * Edition::Two.entry_bytes()[kind - 1] + 4 * word;
    let mut object = tables.to_bytes();
    object[at..at + 4].copy_from_slice(&value.to_le_bytes());
    object
}

use word::{BLANKS, END, NUMBER, SLASH, TEXT};

/// Kind, entry, word, right values, wrong values.
type Edge = (usize, usize, usize, &'static [u32], &'static [u32]);

const EDGES: [Edge; 11] = [
    (
        8,
        0,
        0,
        &[pack(NUMBER, 1), pack(NUMBER, 99_999)],
        &[pack(NUMBER, 0), pack(NUMBER, 100_000), 0, pack(6, 1)],
    ),
    (
        8,
        3,
        0,
        &[pack(BLANKS, 1), pack(BLANKS, 99_999)],
        &[pack(BLANKS, 0), pack(BLANKS, 100_000), pack(255, 1)],
    ),
    (
        8,
        1,
        0,
        &[pack(TEXT, 32), pack(TEXT, 90), pack(TEXT, 36)],
        &[pack(TEXT, 31), pack(TEXT, 35), pack(TEXT, 97), pack(TEXT, 288)],
    ),
    (8, 5, 0, &[pack(SLASH, 0)], &[pack(SLASH, 1), pack(SLASH, 0xFF_FFFF)]),
    (
        8,
        7,
        0,
        &[pack(END, 5), pack(END, 6)],
        &[pack(END, 4), pack(END, 7), pack(SLASH, 0), pack(NUMBER, 5)],
    ),
    (9, 0, 0, &[0], &[1, u32::MAX]),
    (9, 0, 1, &[1, 6], &[7, u32::MAX]),
    (9, 1, 0, &[0], &[1, u32::MAX]),
    (10, 0, 0, &[0, 5], &[1, 2, 3, 4, 6, 7, 8, u32::MAX]),
    (10, 0, 1, &[0], &[1, u32::MAX]),
    (10, 0, 2, &[0, 1, 2], &[3, u32::MAX]),
];

#[test]
fn the_last_right_word_and_the_first_wrong_one() {
    assert_eq!(LEVEL.check(&small().to_bytes()), Ok(()));
    for (kind, entry, word, right, wrong) in EDGES {
        for value in right {
            assert_eq!(
                LEVEL.check(&with_word(kind, entry, word, *value)),
                Ok(()),
                "kind {kind} {value:x}"
            );
        }
        for value in wrong {
            let refused = Err(Refusal::in_body(42, entry, kind as u32));
            let object = with_word(kind, entry, word, *value);
            assert_eq!(LEVEL.check(&object), refused, "kind {kind} {value:x}");
            if kind == 10 {
                let ran = LEVEL.bench(&object, &mut [0; 6], 9, &mut Lent::new(&[], 9)).unwrap().0;
                assert_eq!((ran.halt, ran.steps), (8, 1), "kind {kind} {value:x}");
            }
        }
    }
}

/// An empty list's first item may be the number of items, and no more.
#[test]
fn an_empty_list_stands_inside_its_table() {
    let with = |first: u32| {
        let mut t = small();
        (t.transfers[0].first, t.transfers[0].count) = (first, 0);
        t.to_bytes()
    };
    assert_eq!(LEVEL.check(&with(2)), Ok(()));
    assert_eq!(LEVEL.check(&with(3)), Err(Refusal::in_body(42, 0, 10)));
}
