//! `batch`: a request a line on standard input, its answer on the same line of standard output.

use std::io::{self, stdin, BufRead, Read};

use luvinqata::{bench_with, check, compile, run_with, Ran, Refusal, State, Store, Trays, LONGEST_OBJECT, STACK};

use crate::objects::{mapped, refused};
use crate::output::Output;
use crate::{program, Outcome, Status};

/// The bytes of the longest request that is read: room for the longest object and the largest store with five thousand cards.
const LONGEST: usize = 1_048_576;
/// The most lines that a request may ask room for, 138 million bytes.
const LINES: u32 = 1_048_576;

pub fn batch(out: &mut Output) -> Outcome {
    let (mut input, mut line) = (stdin().lock(), Vec::new());
    while let Some(whole) = next(&mut input, &mut line).map_err(|error| format!("standard input: {error}"))? {
        let request = line.strip_suffix(b"\r").unwrap_or(&line);
        let answer = std::str::from_utf8(request).ok().filter(|_| whole).and_then(answer);
        out.line(answer.as_deref().unwrap_or("BAD REQUEST"));
        // Whoever drives this through a pipe waits for the answer.
        out.flush();
        if out.failed {
            break;
        }
    }
    Ok(Status::default())
}

/// Reads a line and says whether it is whole; of one that is too long the rest is passed over. None: there is no more.
fn next(input: &mut impl BufRead, line: &mut Vec<u8>) -> io::Result<Option<bool>> {
    line.clear();
    let read = input.by_ref().take(LONGEST as u64 + 1).read_until(b'\n', line)?;
    if line.last() == Some(&b'\n') {
        line.pop();
    }
    if line.len() > LONGEST {
        input.skip_until(b'\n')?;
    }
    Ok((read > 0).then_some(line.len() <= LONGEST))
}

/// None: the request cannot be read.
fn answer(request: &str) -> Option<String> {
    let fields: Vec<&str> = request.split(' ').collect();
    let answer = match fields[..] {
        ["compile", k, deck, room] => compiled(unsigned(k)?, &bytes(deck)?, unsigned(room)?),
        ["check", object] => check(&bytes(object)?).map_or_else(|r| refused(&r), |()| "OK".to_string()),
        ["run", object, store, state, allowance, cards, lines] => {
            let (object, mut store, mut state) = (bytes(object)?, numbers(store)?, state_of(state)?);
            let (mut trays, allowance) = (trays(cards, lines)?, unsigned(allowance)?);
            let ran = run_with(&object, &mut store, &mut state, &mut trays, allowance);
            shown(ran, &state, &store, &trays)
        }
        ["bench", object, store, allowance, cards, lines] => {
            let (object, mut store, mut state) = (bytes(object)?, numbers(store)?, State::fresh());
            let (mut trays, allowance) = (trays(cards, lines)?, unsigned(allowance)?);
            let ran = bench_with(&object, &mut store, &mut state, &mut trays, allowance);
            shown(ran, &state, &store, &trays)
        }
        ["map", object] => Store::new(&bytes(object)?).map_or_else(|r| refused(&r), |store| names(&store)),
        ["program", input] => program::program(&bytes(input)?).join(" | "),
        _ => return None,
    };
    Some(answer)
}

fn compiled(k: u32, deck: &[u8], room: u32) -> String {
    // No object takes more room than the longest.
    let mut output = vec![0; LONGEST_OBJECT.min(room as usize)];
    match compile(k, deck, &mut output) {
        Ok(length) => format!("OK {}", hexadecimal(&output[..length])),
        Err(refusal) => program::refused(&refusal),
    }
}

/// How the run ended, the state, the stack, each cell, and each line printed.
fn shown(ran: Result<Ran, Refusal>, state: &State, store: &[i64], trays: &Trays) -> String {
    let ran = match ran {
        Ok(ran) => ran,
        Err(refusal) => return refused(&refusal),
    };
    let mut lines = vec![
        format!("{} CARDS {} LINES {}", program::ended(&ran), ran.cards, ran.lines),
        format!("{} {} {}", state.index, state.height, state.mark),
        state.places.map(|number| number.to_string()).join(" "),
    ];
    lines.extend(store.iter().map(i64::to_string));
    lines.extend(trays.lines.iter().map(|line| format!("={line}")));
    lines.join(" | ")
}

fn names(store: &Store) -> String {
    store.names().iter().map(mapped).collect::<Vec<String>>().join(" | ")
}

/// Pairs of hexadecimal digits; `-` for none.
fn bytes(field: &str) -> Option<Vec<u8>> {
    if field == "-" {
        return Some(Vec::new());
    }
    let digit = |byte: &u8| char::from(*byte).to_digit(16);
    let byte = |pair: &[u8]| match pair {
        [high, low] => Some((digit(high)? * 16 + digit(low)?) as u8),
        _ => None,
    };
    let bytes: Option<Vec<u8>> = field.as_bytes().chunks(2).map(byte).collect();
    bytes.filter(|bytes| !bytes.is_empty())
}

fn hexadecimal(bytes: &[u8]) -> String {
    bytes.iter().map(|byte| format!("{byte:02x}")).collect()
}

/// Decimals joined by commas; `-` for none.
fn numbers(field: &str) -> Option<Vec<i64>> {
    match field {
        "-" => Some(Vec::new()),
        _ => field.split(',').map(signed).collect(),
    }
}

/// The cards, and how many lines there is to be room for.
fn trays(cards: &str, lines: &str) -> Option<Trays<'static>> {
    let lines = unsigned(lines).filter(|lines| *lines <= LINES)?;
    Some(Trays::new(bytes(cards)?, lines as usize))
}

/// Index, height and mark, then the stack.
fn state_of(field: &str) -> Option<State> {
    let parts: Vec<&str> = field.split(',').collect();
    let [index, height, mark, stack @ ..] = &parts[..] else {
        return None;
    };
    let places: Option<Vec<i64>> = stack.iter().map(|part| signed(part)).collect();
    let places: [i64; STACK] = places?.try_into().ok()?;
    Some(State {
        index: unsigned(index)?,
        height: unsigned(height)?,
        mark: unsigned(mark)?,
        places,
    })
}

fn unsigned(field: &str) -> Option<u32> {
    digits(field).then(|| field.parse().ok()).flatten()
}

fn signed(field: &str) -> Option<i64> {
    digits(field.strip_prefix('-').unwrap_or(field))
        .then(|| field.parse().ok())
        .flatten()
}

fn digits(field: &str) -> bool {
    !field.is_empty() && field.bytes().all(|byte| byte.is_ascii_digit())
}
