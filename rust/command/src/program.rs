//! What the program of the worked examples prints, and the program itself.

use luvinqata::{compile_to_vec, run, Ran, Refusal, State, Store, CARD};

/// The program's allowance.
const STEPS: u32 = 1_000_000;
/// The digits where the control card has none.
const DIGITS: u32 = 5;

/// A run from a store of zeros and a fresh state, and the store after it.
pub fn run_from_zero(object: &[u8], steps: u32) -> Result<(Ran, Store), Refusal> {
    let mut store = Store::new(object)?;
    let ran = run(object, store.cells_mut(), &mut State::fresh(), steps)?;
    Ok((ran, store))
}

/// Halt, steps and first loss.
pub fn ended(ran: &Ran) -> String {
    format!("HALT {} STEPS {} DROP {}", ran.halt, ran.steps, ran.sequence)
}

/// How it ended; then every name with its value, elements in storage order.
pub fn printed(ran: &Ran, store: &Store) -> Vec<String> {
    let values = store.iter().map(|(name, value)| format!("{name} {value}"));
    std::iter::once(ended(ran)).chain(values).collect()
}

pub fn refused(refusal: &Refusal) -> String {
    format!("REFUSED {} {}", refusal.number(), refusal.place)
}

/// The lines that the program prints for its input: a control card, then a deck.
pub fn program(input: &[u8]) -> Vec<String> {
    let answer = match input.split_at_checked(CARD) {
        // The digits 0 are refused as those of a wrong control card are to be: by 1.
        None => compile_to_vec(0, input),
        Some((control, deck)) => compile_to_vec(digits(control), deck),
    };
    match answer.and_then(|object| run_from_zero(&object, STEPS)) {
        Ok((ran, store)) => printed(&ran, &store),
        Err(refusal) => vec![refused(&refusal)],
    }
}

/// k in column 1, blank for 5, then blanks; 0 for any other card.
fn digits(control: &[u8]) -> u32 {
    let blank = control[1..].iter().all(|byte| *byte == b' ');
    match control[0] {
        b' ' if blank => DIGITS,
        digit @ b'1'..=b'9' if blank => u32::from(digit - b'0'),
        _ => 0,
    }
}
