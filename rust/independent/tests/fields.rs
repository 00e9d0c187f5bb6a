//! Fields of every sort, read and printed as they were made to be.

use std::collections::BTreeMap;

use independent::generate::{told_deck, Rng, PRINTED, PUNCHED};
use independent::{Lent, Level, State};

const DECKS: u64 = 5_000;
const OFTEN: u32 = 50;

#[test]
fn fields_are_what_they_were_made_to_be() {
    let mut seen: BTreeMap<&str, u32> = BTreeMap::new();
    for seed in 0..DECKS {
        let told = told_deck(&mut Rng::new(seed));
        let (_, tables) = Level::Cards.accept(told.made.k, &told.made.deck).unwrap();
        let mut store = vec![-1; tables.cells as usize];
        let mut lent = Lent::new(&told.card, 1);
        let ran = Level::Cards
            .run(&tables.to_bytes(), &mut store, &mut State::fresh(), 9, &mut lent)
            .unwrap();
        for sort in &told.punched {
            *seen.entry(sort).or_default() += 1;
        }
        let Some(values) = told.values else {
            assert_eq!(
                (ran.halt, ran.steps, lent),
                (10, 1, Lent::new(&told.card, 1)),
                "seed {seed}"
            );
            assert!(store.iter().all(|cell| *cell == -1), "seed {seed}");
            continue;
        };
        for sort in &told.printed {
            *seen.entry(sort).or_default() += 1;
        }
        assert_eq!((ran.halt, ran.steps, lent.taken()), (1, 3, 1), "seed {seed}");
        assert_eq!(store, values, "seed {seed}");
        assert_eq!(lent.shown().collect::<Vec<_>>(), [told.line], "seed {seed}");
    }
    println!("{seen:?}");
    assert_eq!(seen.len(), PUNCHED.len() + PRINTED.len());
    assert!(seen.values().all(|count| *count >= OFTEN), "{seen:?}");
}
