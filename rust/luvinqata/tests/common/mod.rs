//! The archive's answers in the independent implementation's words, and generated objects.
#![allow(dead_code)]

use independent::generate::{self, Rng};
use independent::{Lent, Level, Ran, Refusal, State};
use luvinqata::Trays;

/// The requests whose objects the archive takes. It compiles as the base does.
pub const LEVEL: Level = Level::Cards;

pub fn compile(k: u32, deck: &[u8], output: &mut [u8]) -> Result<usize, Refusal> {
    luvinqata::compile(k, deck, output).map_err(refusal)
}

pub fn check(object: &[u8]) -> Result<(), Refusal> {
    luvinqata::check(object).map_err(refusal)
}

pub fn run(object: &[u8], store: &mut [i64], state: &mut State, allowance: u32) -> Result<Ran, Refusal> {
    run_with(object, store, state, &mut Trays::empty(), allowance)
}

pub fn run_with(
    object: &[u8],
    store: &mut [i64],
    state: &mut State,
    trays: &mut Trays,
    allowance: u32,
) -> Result<Ran, Refusal> {
    lend(state, |lent| luvinqata::run_with(object, store, lent, trays, allowance))
}

pub fn bench(object: &[u8], store: &mut [i64], state: &mut State, allowance: u32) -> Result<Ran, Refusal> {
    bench_with(object, store, state, &mut Trays::empty(), allowance)
}

pub fn bench_with(
    object: &[u8],
    store: &mut [i64],
    state: &mut State,
    trays: &mut Trays,
    allowance: u32,
) -> Result<Ran, Refusal> {
    lend(state, |lent| {
        luvinqata::bench_with(object, store, lent, trays, allowance)
    })
}

/// Whether as many cards are taken, and the same lines written.
pub fn used_alike(trays: &Trays, lent: &Lent) -> bool {
    trays.cards.taken() == lent.taken() && trays.lines.bytes() == lent.lines().concat()
}

pub fn map(object: &[u8], table: &mut [u8]) -> Result<usize, Refusal> {
    luvinqata::map(object, table).map_err(refusal)
}

fn lend(
    state: &mut State,
    call: impl FnOnce(&mut luvinqata::State) -> Result<luvinqata::Ran, luvinqata::Refusal>,
) -> Result<Ran, Refusal> {
    let mut lent = luvinqata::State {
        index: state.index,
        height: state.height,
        mark: state.mark,
        places: state.places,
    };
    let answer = call(&mut lent);
    *state = State {
        index: lent.index,
        height: lent.height,
        mark: lent.mark,
        places: lent.places,
    };
    let ran = |ran: luvinqata::Ran| Ran {
        halt: ran.halt.number(),
        steps: ran.steps,
        sequence: ran.sequence,
    };
    answer.map(ran).map_err(refusal)
}

fn refusal(refusal: luvinqata::Refusal) -> Refusal {
    Refusal {
        number: refusal.number(),
        place: refusal.place,
        kind: refusal.kind,
    }
}

/// The refusal's number that a reason begins with.
pub fn number_of(reason: &str) -> u32 {
    let number = reason.split(' ').next().unwrap_or(reason);
    number.parse().unwrap_or(0)
}

/// An object with no damage: sound, made of random tables (which may pass or not), or compiled.
pub fn object(level: Level, rng: &mut Rng) -> Vec<u8> {
    match rng.below(10) {
        0..=2 => generate::sound_object_at(level, rng),
        3..=5 => generate::made_object_at(level, rng),
        _ => compiled(level, rng),
    }
}

fn compiled(level: Level, rng: &mut Rng) -> Vec<u8> {
    let made = match rng.below(20) {
        0 => generate::limit_deck(rng),
        _ => generate::ordinary_deck_at(level, rng),
    };
    let mut out = vec![0; level.edition().longest()];
    match level.compile(made.k, &made.deck, &mut out) {
        Ok(length) => out[..length].to_vec(),
        Err(_) => generate::sound_object_at(level, rng),
    }
}
