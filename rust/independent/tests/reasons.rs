//! Sound objects are sound, broken ones are broken, and every refusal from 41 on has a reason of its number.

use std::collections::BTreeSet;

use independent::check::{judge, open};
use independent::generate::{self, Rng};
use independent::reason::{of_run, unreachable, REASONS};
use independent::{check, run, State};

const SEEDS: u64 = 20_000;

#[test]
fn sound_objects_pass() {
    for seed in 0..SEEDS {
        assert_eq!(
            check(&generate::sound_object(&mut Rng::new(seed))),
            Ok(()),
            "seed {seed}"
        );
    }
}

#[test]
fn right_states_pass() {
    for seed in 0..SEEDS {
        let mut rng = Rng::new(seed);
        let object = generate::sound_object(&mut rng);
        let tables = open(&object).unwrap();
        let mut state = generate::right_state(&mut rng, tables.k, &judge(&tables).unwrap());
        let mut store = generate::store(&mut rng, tables.k, tables.cells as usize);
        assert!(run(&object, &mut store, &mut state, 9).is_ok(), "seed {seed}");
    }
}

#[test]
fn every_refusal_has_its_reason() {
    let mut met = BTreeSet::new();
    for seed in 0..SEEDS {
        let mut rng = Rng::new(seed);
        let broken = rng.chance(60);
        let object = match broken {
            true => generate::broken_object(&mut rng),
            false => generate::sound_object(&mut rng),
        };
        let refused = check(&object).is_err();
        assert_eq!(refused, broken, "seed {seed}");
        let tables = open(&object).ok();
        let (k, cells) = tables.as_ref().map_or((1, 1), |t| (t.k, t.cells as usize));
        let store = match rng.chance(30) {
            true => generate::broken_store(&mut rng, k, cells),
            false => generate::store(&mut rng, k, cells),
        };
        let heights = tables.and_then(|t| judge(&t).ok());
        let state = heights.map_or(State::fresh(), |heights| generate::broken_state(&mut rng, k, &heights));
        let answer = run(&object, &mut store.clone(), &mut state.clone(), 9);
        let number = answer.map_or_else(|refusal| refusal.number, |_| 0);
        let reasons = of_run(&object, &store, &state);
        assert_eq!(reasons.is_empty(), number == 0, "seed {seed}");
        assert!(
            reasons
                .iter()
                .all(|r| r.starts_with(&number.to_string()) && REASONS.contains(r)),
            "seed {seed}"
        );
        met.extend(reasons);
        if unreachable(&object) {
            met.insert("43 in unreachable code");
        }
    }
    assert_eq!(met.len(), REASONS.len());
}
