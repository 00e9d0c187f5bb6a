//! A deck with one fault is refused by the fault's number at the fault's place, for every reason.

use independent::generate::{deck_reasons, deck_reasons_at, faulty_deck_at, Rng};
use independent::Level;

const EACH: u64 = 300;

fn each(level: Level, reasons: std::ops::Range<usize>, times: u64) {
    for reason in reasons {
        for seed in 0..times {
            let faulty = faulty_deck_at(level, &mut Rng::new(seed * 1_000 + reason as u64), reason);
            let refusal = level.compile(faulty.made.k, &faulty.made.deck, &mut []).unwrap_err();
            assert_eq!(
                (refusal.number, refusal.place, refusal.kind),
                (faulty.number(), faulty.place, 0),
                "seed {seed}: {}",
                faulty.reason
            );
        }
    }
}

#[test]
fn faults_are_where_they_are() {
    each(Level::Base, 0..deck_reasons(), EACH);
}

/// The base's reasons hold among READs and PRINTs too, and those that came with them.
#[test]
fn faults_with_cards_are_where_they_are() {
    each(Level::Cards, 0..deck_reasons(), EACH / 5);
    each(Level::Cards, deck_reasons()..deck_reasons_at(Level::Cards), EACH);
}
