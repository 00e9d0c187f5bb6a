//! Generated objects, right and damaged: the checker against its definition, the machine on
//! what passes and on what does not.

use std::collections::{BTreeMap, BTreeSet};

use independent::check::{heights, judge, open, successors};
use independent::generate::{self, Rng};
use independent::object::{unpack, Tables};
use independent::operation::pops_pushes;
use independent::{bench, check, compile, map, run, Refusal, State};

const OBJECTS: u64 = 20_000;
const STEPS: u32 = 300;
const FILL: u8 = 0xA5;

fn objects() -> impl Iterator<Item = (u64, Rng, Vec<u8>)> {
    (0..OBJECTS).map(|seed| {
        let mut rng = Rng::new(seed);
        let mut object = if rng.chance(50) {
            generate::made_object(&mut rng)
        } else {
            compiled(&mut rng)
        };
        if rng.chance(60) {
            object = generate::damaged_object(&mut rng, &object);
        }
        (seed, rng, object)
    })
}

fn compiled(rng: &mut Rng) -> Vec<u8> {
    let made = generate::ordinary_deck(rng);
    let mut out = vec![0; 50_000];
    match compile(made.k, &made.deck, &mut out) {
        Ok(length) => out[..length].to_vec(),
        Err(_) => generate::made_object(rng),
    }
}

/// 44 by another way: every instruction with every height it can be met at, values set aside.
/// None: some way leads to no successor or a wrong stack, or to two heights of one instruction.
fn every_way(t: &Tables) -> Option<BTreeSet<(usize, usize)>> {
    let mut met = BTreeSet::new();
    let mut work = vec![(0, 0)];
    while let Some((index, height)) = work.pop() {
        if index >= t.code.len() {
            return None;
        }
        if !met.insert((index, height)) {
            continue;
        }
        let (pops, pushes) = pops_pushes(unpack(t.code[index]).0);
        if height < pops || height - pops + pushes > 40 {
            return None;
        }
        work.extend(
            successors(t, index)
                .into_iter()
                .map(|next| (next, height - pops + pushes)),
        );
    }
    let instructions: BTreeSet<usize> = met.iter().map(|(index, _)| *index).collect();
    (instructions.len() == met.len()).then_some(met)
}

#[test]
fn the_checker_gives_every_number_and_its_heights() {
    let mut seen: BTreeMap<(u32, u32), u32> = BTreeMap::new();
    for (seed, _, object) in objects() {
        let refusal = check(&object).err().unwrap_or(Refusal {
            number: 0,
            place: 0,
            kind: 0,
        });
        *seen.entry((refusal.number, refusal.kind)).or_default() += 1;
        let Ok(tables) = open(&object) else { continue };
        if ![0, 44].contains(&refusal.number) {
            continue;
        }
        let table = heights(&tables).map(|table| {
            let reached = table
                .iter()
                .enumerate()
                .filter_map(|(index, h)| h.map(|h| (index, usize::from(h))));
            reached.collect::<BTreeSet<(usize, usize)>>()
        });
        assert_eq!(table, every_way(&tables), "seed {seed}");
    }
    println!("{seen:?}");
    let expected = [
        (0, 0),
        (40, 0),
        (41, 0),
        (42, 1),
        (42, 2),
        (42, 4),
        (42, 6),
        (42, 7),
        (43, 5),
        (44, 0),
    ];
    assert_eq!(seen.keys().copied().collect::<Vec<_>>(), expected);
    assert!(seen.values().all(|count| *count >= 20), "{seen:?}");
}

/// "On an object that passes the check it never gives 7 or 8 and equals the run from a fresh
/// state." On one that does not: "refuses only by 40, 41, 50 and 51".
#[test]
fn bench_runs() {
    let mut halts: BTreeMap<u32, u32> = BTreeMap::new();
    for (seed, mut rng, object) in objects() {
        let (k, cells) = open(&object).map_or((1, 3), |t| (t.k, t.cells as usize));
        let past = rng.below(2);
        let start = generate::store(&mut rng, k, cells + past);
        let mut bench_store = start.clone();
        let benched = bench(&object, &mut bench_store, STEPS);
        if let Err(refusal) = benched {
            assert!([40, 41].contains(&refusal.number), "seed {seed}");
            assert_eq!((check(&object), &bench_store), (Err(refusal), &start), "seed {seed}");
            continue;
        }
        let (ran, after) = benched.unwrap();
        *halts.entry(ran.halt).or_default() += 1;
        assert!(after.places[after.height as usize..].iter().all(|place| *place == 0));
        let (mut store, mut state) = (start.clone(), State::fresh());
        match run(&object, &mut store, &mut state, STEPS) {
            Ok(same) => {
                assert!(ran.halt < 7, "seed {seed}");
                assert_eq!((same, state, store), (ran, after, bench_store), "seed {seed}");
            }
            Err(refusal) => {
                assert_eq!(check(&object), Err(refusal), "seed {seed}");
                assert_eq!((state, store), (State::fresh(), start), "seed {seed}");
            }
        }
    }
    println!("{halts:?}");
    assert_eq!(halts.keys().copied().collect::<Vec<_>>(), (0..=8).collect::<Vec<_>>());
    assert!(halts.values().all(|count| *count >= 20), "{halts:?}");
}

/// 50, 51 and 52, and that a refused run changes nothing.
#[test]
fn stores_and_states() {
    let mut seen: BTreeMap<u32, u32> = BTreeMap::new();
    for (seed, mut rng, object) in objects() {
        let Ok(tables) = open(&object) else { continue };
        let Ok(heights) = judge(&tables) else { continue };
        let cells = tables.cells as usize;
        let mut start = generate::store(&mut rng, tables.k, cells + 1);
        start.truncate(cells + rng.below(3) - usize::from(cells > 0 && rng.chance(10)));
        let power = 10i64.pow(tables.k);
        if rng.chance(10) && !start.is_empty() {
            let at = rng.below(start.len());
            start[at] = *rng.pick(&[power, -power, i64::MIN, i64::MAX]);
        }
        let given = generate::state(&mut rng, tables.k, tables.code.len());
        let fits = |value: &i64| value.unsigned_abs() < power as u64;
        let height = heights.get(given.index as usize).copied().flatten();
        let state_right = height.map(u32::from) == Some(given.height)
            && given.places[..given.height.min(40) as usize].iter().all(fits)
            && given.mark as usize <= tables.code.len();
        let expected = match start.get(..cells) {
            None => 50,
            Some(judged) if !judged.iter().all(fits) => 51,
            Some(_) if !state_right => 52,
            Some(_) => 0,
        };
        let (mut store, mut state) = (start.clone(), given);
        let answer = run(&object, &mut store, &mut state, STEPS);
        assert_eq!(
            answer.map_or_else(|refusal| refusal.number, |_| 0),
            expected,
            "seed {seed}"
        );
        if let Err(refusal) = answer {
            assert_eq!((refusal.place, refusal.kind), (0, 0));
            assert_eq!((&store, state), (&start, given), "seed {seed}");
        } else {
            assert_eq!(store.get(cells..), start.get(cells..), "seed {seed}");
            assert!(
                store[..cells].iter().all(fits) && state.places.iter().all(fits),
                "seed {seed}"
            );
            assert!(given.mark == 0 || state.mark == given.mark, "seed {seed}");
        }
        let mut bench_store = start.clone();
        let benched = bench(&object, &mut bench_store, STEPS).map_or_else(|refusal| refusal.number, |_| 0);
        assert_eq!(benched, if expected == 52 { 0 } else { expected }, "seed {seed}");
        *seen.entry(expected).or_default() += 1;
    }
    println!("{seen:?}");
    assert_eq!(seen.keys().copied().collect::<Vec<_>>(), [0, 50, 51, 52]);
    assert!(seen.values().all(|count| *count >= 20), "{seen:?}");
}

/// "The map call checks an object and writes body 7 to a lent table, 30 if too short."
#[test]
fn maps() {
    let mut written = 0;
    for (seed, _, object) in objects() {
        let mut table = vec![FILL; 2_100];
        let length = match map(&object, &mut table) {
            Err(refusal) => {
                assert_eq!(check(&object), Err(refusal), "seed {seed}");
                assert!(table.iter().all(|byte| *byte == FILL));
                continue;
            }
            Ok(length) => length,
        };
        assert!(object.ends_with(&table[..length]), "seed {seed}");
        assert_eq!(length, 20 * open(&object).unwrap().names.len());
        assert!(table[length..].iter().all(|byte| *byte == FILL));
        if length > 0 {
            let mut short = vec![FILL; length - 1];
            assert_eq!(
                map(&object, &mut short),
                Err(Refusal {
                    number: 30,
                    place: 0,
                    kind: 0
                })
            );
            assert!(short.iter().all(|byte| *byte == FILL));
            written += 1;
        }
    }
    assert!(written > 1_000, "{written}");
}

/// Any bytes are taken.
#[test]
fn any_bytes_are_an_object() {
    for seed in 0..5_000 {
        let mut rng = Rng::new(seed);
        let object: Vec<u8> = (0..rng.below(300)).map(|_| rng.below(256) as u8).collect();
        let expected = Err(Refusal {
            number: 40,
            place: 0,
            kind: 0,
        });
        assert_eq!(check(&object), expected);
        assert_eq!(bench(&object, &mut [i64::MIN; 3], u32::MAX).map(|_| ()), expected);
    }
}
