//! Seeded random decks, stores, states and objects, right and damaged, for comparisons.

mod broken;
#[rustfmt::skip]
mod card_templates;
mod cards_wrong;
mod crowded;
mod damage;
mod faults;
mod fields;
mod formats;
mod limits;
mod objects;
mod overfull;
mod punch;
mod source;
#[rustfmt::skip]
mod templates;
mod transfers;

pub use broken::{
    broken_object, broken_object_at, broken_state, broken_store, right_state, sound_object, sound_object_at,
};
pub use crowded::crowded_deck;
pub use damage::damaged_deck;
pub use faults::{deck_reasons, deck_reasons_at, faulty_deck, faulty_deck_at, Faulty};
pub use fields::{told_deck, Told, PRINTED, PUNCHED};
pub use formats::cards;
pub use objects::{damaged_object, made_object, made_object_at};

use crate::level::Level;
use crate::limits::STACK;
use crate::machine::State;
use punch::{punch, Style};
use source::Line;

/// A small generator of numbers (xorshift), the same for the same seed.
#[derive(Clone, Debug)]
pub struct Rng(u64);

impl Rng {
    pub fn new(seed: u64) -> Rng {
        let mut rng = Rng(seed.wrapping_mul(0x9E37_79B9_7F4A_7C15) | 1);
        for _ in 0..8 {
            rng.draw();
        }
        rng
    }

    pub fn draw(&mut self) -> u64 {
        self.0 ^= self.0 << 13;
        self.0 ^= self.0 >> 7;
        self.0 ^= self.0 << 17;
        self.0.wrapping_mul(0x2545_F491_4F6C_DD1D) >> 16
    }

    /// A number below `bound`, which is above 0.
    pub fn below(&mut self, bound: usize) -> usize {
        (self.draw() % bound as u64) as usize
    }

    /// A number from `first` through `last`.
    pub fn range(&mut self, first: usize, last: usize) -> usize {
        first + self.below(last - first + 1)
    }

    /// True `percent` times of a hundred.
    pub fn chance(&mut self, percent: usize) -> bool {
        self.below(100) < percent
    }

    /// One of a list that is not empty.
    pub fn pick<'a, T>(&mut self, list: &'a [T]) -> &'a T {
        &list[self.below(list.len())]
    }
}

/// A deck and the digits to compile it with.
#[derive(Clone, Debug)]
pub struct Made {
    pub k: u32,
    pub deck: Vec<u8>,
}

/// A deck of the base.
pub fn deck(rng: &mut Rng) -> Made {
    deck_at(Level::Base, rng)
}

/// A deck of any sort: ordinary, with slips, damaged in its texts or on its cards, near a limit.
pub fn deck_at(level: Level, rng: &mut Rng) -> Made {
    match rng.below(20) {
        0..=7 => ordinary_deck_at(level, rng),
        8..=10 => written_deck(level, rng, true),
        11..=13 => misspelt_deck_at(level, rng),
        14..=15 => {
            let made = ordinary_deck_at(level, rng);
            Made {
                k: made.k,
                deck: damaged_deck(rng, &made.deck),
            }
        }
        _ => limit_deck(rng),
    }
}

/// An ordinary deck of the base.
pub fn ordinary_deck(rng: &mut Rng) -> Made {
    ordinary_deck_at(Level::Base, rng)
}

/// A deck meant to be accepted, of every form of statement.
pub fn ordinary_deck_at(level: Level, rng: &mut Rng) -> Made {
    written_deck(level, rng, false)
}

/// A deck of the base in which here and there a rule is broken.
pub fn slipping_deck(rng: &mut Rng) -> Made {
    written_deck(Level::Base, rng, true)
}

fn written_deck(level: Level, rng: &mut Rng, slips: bool) -> Made {
    let k = rng.range(1, 9) as u32;
    let lines = source::program(level, rng, k, slips);
    let style = Style::any(rng);
    Made {
        k,
        deck: punch(rng, &lines, style),
    }
}

/// A misspelt deck of the base.
pub fn misspelt_deck(rng: &mut Rng) -> Made {
    misspelt_deck_at(Level::Base, rng)
}

/// A deck with a character or a statement wrong, missing, moved or said twice.
pub fn misspelt_deck_at(level: Level, rng: &mut Rng) -> Made {
    let k = rng.range(1, 9) as u32;
    let mut lines = source::program(level, rng, k, false);
    for _ in 0..rng.range(1, 2) {
        damage::misspell(rng, &mut lines);
    }
    let style = Style::any(rng);
    Made {
        k,
        deck: punch(rng, &lines, style),
    }
}

/// A deck just under, at or just over one of the limits, in any style.
pub fn limit_deck(rng: &mut Rng) -> Made {
    let limits::AtLimit { k, lines, .. } = limits::program(rng);
    let style = Style::any(rng);
    Made {
        k,
        deck: punch(rng, &lines, style),
    }
}

/// The same in a plain style, with the number it must be refused by, None if it is inside.
pub fn judged_limit_deck(rng: &mut Rng) -> (Made, Option<u32>) {
    let limits::AtLimit { k, lines, refusal } = limits::program(rng);
    (
        Made {
            k,
            deck: punch(rng, &lines, Style::default()),
        },
        refusal,
    )
}

/// The texts of a deck's statements, as an ordinary or misspelt deck would hold them.
pub fn texts(level: Level, rng: &mut Rng) -> Vec<String> {
    let mut lines = source::program(level, rng, 5, true);
    if rng.chance(70) {
        damage::misspell(rng, &mut lines);
    }
    lines.into_iter().map(|line: Line| line.text).collect()
}

/// A number of at most k digits, small or at the edge more often than not.
pub fn value(rng: &mut Rng, k: u32) -> i64 {
    let power = 10i64.pow(k);
    let size = match rng.below(8) {
        0..=4 => rng.below(12) as i64 % power,
        5 => power - 1,
        _ => rng.below(power as usize) as i64,
    };
    if rng.chance(25) {
        -size
    } else {
        size
    }
}

/// A store of numbers inside the digit limit.
pub fn store(rng: &mut Rng, k: u32, cells: usize) -> Vec<i64> {
    (0..cells).map(|_| value(rng, k)).collect()
}

/// A made-up state for a code of some length, right or wrong.
pub fn state(rng: &mut Rng, k: u32, code: usize) -> State {
    let mut state = State::fresh();
    state.index = rng.below(code + 2) as u32;
    state.height = rng.below(4) as u32;
    state.mark = rng.below(code + 3) as u32;
    if rng.chance(3) {
        state.height = *rng.pick(&[STACK as u32, STACK as u32 + 1, u32::MAX]);
    }
    for place in state.places.iter_mut().take(rng.below(5)) {
        *place = value(rng, k);
    }
    if rng.chance(10) {
        let power = 10i64.pow(k);
        state.places[rng.below(4)] = *rng.pick(&[power, -power, i64::MIN, i64::MAX]);
    }
    state
}
