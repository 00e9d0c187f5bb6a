//! A run split at random places is the whole run, and what a run leaves is never refused.

mod common;

use independent::check::{judge, open};
use independent::generate::{self, Rng};
use independent::{Level, State};

const RUNS: u64 = 4_000;

#[test]
fn runs_split_anywhere() {
    let (mut splits, mut halted) = (0, 0);
    for seed in 0..RUNS {
        let mut rng = Rng::new(seed);
        let object = common::object(Level::Base, &mut rng);
        let Ok(tables) = open(&object) else { continue };
        let Ok(heights) = judge(&tables) else { continue };
        let start = generate::store(&mut rng, tables.k, tables.cells as usize);
        let from = match rng.chance(50) {
            true => State::fresh(),
            false => generate::right_state(&mut rng, tables.k, &heights),
        };
        let allowance = rng.below(400) as u32;
        let (mut store, mut state) = (start.clone(), from);
        let whole = common::run(&object, &mut store, &mut state, allowance).expect("a right state");

        let (mut part_store, mut part_state) = (start, from);
        let (mut left, mut steps) = (allowance, 0);
        loop {
            let part = rng.below(left as usize + 1).min(rng.range(0, 60)) as u32;
            let ran = common::run(&object, &mut part_store, &mut part_state, part).expect("what a run left");
            (left, steps, splits) = (left - part, steps + ran.steps, splits + 1);
            if ran.halt != 2 || left == 0 {
                assert_eq!(
                    (ran.halt, steps, ran.sequence),
                    (whole.halt, whole.steps, whole.sequence),
                    "seed {seed}"
                );
                assert_eq!((&part_store, part_state), (&store, state), "seed {seed}");
                halted += u32::from(ran.halt != 2);
                break;
            }
        }
    }
    assert!(splits > 5_000 && halted > 500, "{splits} parts, {halted} halts");
}
