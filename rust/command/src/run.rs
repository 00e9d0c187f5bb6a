//! `run` and `compile`: one deck.

use luvinqata::{compile_to_vec, Program, State, Store};

use crate::arguments::{Compile, Run};
use crate::file::Beside;
use crate::output::Output;
use crate::program::{printed, refused};
use crate::told::{list, tell_end, tell_refusal};
use crate::uses::Uses;
use crate::{given, input, Outcome, Status};

/// Prints as the program does; what it says in words goes to standard error.
pub fn run(options: &Run, out: &mut Output) -> Outcome {
    let deck = input::deck(&options.deck, out)?;
    let program = match Program::compile(options.deck.digits, &deck) {
        Ok(program) => program,
        Err(refusal) => {
            out.line(refused(&refusal));
            return Ok(tell_refusal(&refusal, &deck, out));
        }
    };
    let mut store = Store::new(program.object()).expect("a compiled object passes the check");
    let set = given::cells(&options.running.set, &store, program.digits())?;
    tell_unset(&program, &store, &set, out);
    for (cell, value) in set {
        store.cells_mut()[cell] = value;
    }
    let mut state = State::fresh();
    let ran = luvinqata::run(program.object(), store.cells_mut(), &mut state, options.running.steps);
    let ran = ran.expect("a right store and a fresh state");
    printed(&ran, &store).iter().for_each(|line| out.line(line));
    tell_end(&ran, &state, &program, &deck, out);
    Ok(Status {
        lost: ran.sequence > 0,
        failed: false,
        stuck: !ran.halt.is_end(),
    })
}

fn tell_unset(program: &Program, store: &Store, set: &[(usize, i64)], out: &mut Output) {
    let unset = Uses::of(program).unset(store, |cell| set.iter().any(|(given, _)| *given == cell));
    if let Some(first) = unset.first() {
        out.say(format_args!(
            "0 is taken for what the deck reads and never sets: {}; '--set {first}=VALUE' gives it",
            list(&unset, 2)
        ));
    }
}

/// Writes the object to a file, if one is named, and prints its length; `-` is standard output, which then has only the
/// object.
pub fn compile(options: &Compile, out: &mut Output) -> Outcome {
    let deck = input::deck(&options.deck, out)?;
    let object = match compile_to_vec(options.deck.digits, &deck) {
        Ok(object) => object,
        Err(refusal) => return Ok(tell_refusal(&refusal, &deck, out)),
    };
    match &options.object {
        Some(place) if place.as_os_str() == "-" => {
            out.bytes(&object);
            return Ok(Status::default());
        }
        Some(place) => {
            let mut file = Beside::new(place, &[&options.deck.deck])?;
            file.write(&object)?;
            file.finish()?;
        }
        None => {}
    }
    out.line(format_args!("{} bytes", object.len()));
    Ok(Status::default())
}
