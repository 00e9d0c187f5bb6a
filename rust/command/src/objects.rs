//! `check` and `map`: one object.

use luvinqata::{Name, Refusal, Store};

use crate::arguments::Object;
use crate::output::Output;
use crate::{input, Outcome, Status};

pub fn check(options: &Object, out: &mut Output) -> Outcome {
    match luvinqata::check(&input::object(&options.object)?) {
        Ok(()) => out.line("OK"),
        Err(refusal) => return Ok(tell(&refusal, out)),
    }
    Ok(Status::default())
}

pub fn map(options: &Object, out: &mut Output) -> Outcome {
    match Store::new(&input::object(&options.object)?) {
        Ok(store) => store.names().iter().for_each(|name| out.line(mapped(name))),
        Err(refusal) => return Ok(tell(&refusal, out)),
    }
    Ok(Status::default())
}

/// A name with its first cell, rows and columns.
pub fn mapped(name: &Name) -> String {
    format!("{} {} {} {}", name.text, name.first, name.rows, name.columns)
}

/// A refusal with its kind.
pub fn refused(refusal: &Refusal) -> String {
    format!("REFUSED {} {} {}", refusal.number(), refusal.place, refusal.kind)
}

fn tell(refusal: &Refusal, out: &mut Output) -> Status {
    out.line(refused(refusal));
    out.say(refusal);
    Status::FAILED
}
