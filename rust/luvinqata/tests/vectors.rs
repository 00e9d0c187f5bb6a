//! The vectors of the five calls, answered as they are written. Compiling still writes edition 1, so its lines are the base's; objects are taken
//! as 2026-01 takes them, so the lines about objects are that request's.

mod common;

use std::collections::BTreeMap;
use std::fs;
use std::path::Path;

use independent::batch::{bytes, hexadecimal, numbers, read_state, refused, unsigned};
use independent::object::word_at;
use independent::{Ran, State};
use luvinqata::Trays;

/// A file of vectors, the words whose lines are taken, and how many lines begin with each word.
type Vectors = (&'static str, &'static [&'static str], [(&'static str, usize); 6]);

const VECTORS: [Vectors; 2] = [
    (
        "vectors/readings",
        &["compile"],
        [
            ("bench", 16),
            ("check", 56),
            ("compile", 178),
            ("map", 1),
            ("program", 51),
            ("run", 22),
        ],
    ),
    (
        "vectors-02/level-1",
        &["bench", "check", "map", "run"],
        [
            ("bench", 46),
            ("check", 66),
            ("compile", 247),
            ("map", 1),
            ("program", 58),
            ("run", 22),
        ],
    ),
];

fn lines(name: &str) -> Vec<String> {
    let path = Path::new(env!("CARGO_MANIFEST_DIR")).join("../../tests").join(name);
    let text = fs::read_to_string(&path).unwrap_or_else(|error| panic!("{}: {error}", path.display()));
    text.lines().map(str::to_string).collect()
}

/// The answer to a request, or None if it is none of the five calls.
fn answer(request: &str) -> Option<String> {
    let fields: Vec<&str> = request.split(' ').collect();
    match fields[..] {
        ["compile", k, deck, room] => {
            let mut output = vec![0; unsigned(room)? as usize];
            let written = common::compile(unsigned(k)?, &bytes(deck)?, &mut output);
            Some(written.map_or_else(
                |refusal| format!("REFUSED {} {}", refusal.number, refusal.place),
                |length| format!("OK {}", hexadecimal(&output[..length])),
            ))
        }
        ["check", object] => {
            let object = bytes(object)?;
            Some(common::check(&object).map_or_else(refused, |()| "OK".to_string()))
        }
        ["run", object, store, state, allowance, cards, room] => {
            let (object, mut store, mut state) = (bytes(object)?, numbers(store)?, read_state(state)?);
            let mut trays = Trays::new(bytes(cards)?, unsigned(room)? as usize);
            let ran = common::run_with(&object, &mut store, &mut state, &mut trays, unsigned(allowance)?);
            Some(ran.map_or_else(refused, |ran| show(&ran, &state, &store, &trays)))
        }
        ["bench", object, store, allowance, cards, room] => {
            let (object, mut store, mut state) = (bytes(object)?, numbers(store)?, State::fresh());
            let mut trays = Trays::new(bytes(cards)?, unsigned(room)? as usize);
            let ran = common::bench_with(&object, &mut store, &mut state, &mut trays, unsigned(allowance)?);
            Some(ran.map_or_else(refused, |ran| show(&ran, &state, &store, &trays)))
        }
        ["map", object] => {
            let mut table = [0; 2_000];
            let written = common::map(&bytes(object)?, &mut table);
            Some(written.map_or_else(refused, |length| names(&table[..length])))
        }
        _ => None,
    }
}

fn names(table: &[u8]) -> String {
    let name = |entry: &[u8]| {
        let text = String::from_utf8_lossy(&entry[..8]).trim_end().to_string();
        format!(
            "{text} {} {} {}",
            word_at(entry, 8),
            word_at(entry, 12),
            word_at(entry, 16)
        )
    };
    table.chunks(20).map(name).collect::<Vec<String>>().join(" | ")
}

fn show(ran: &Ran, state: &State, store: &[i64], trays: &Trays) -> String {
    let (taken, written) = (trays.cards.taken(), trays.lines.iter().count());
    let mut parts = vec![
        format!(
            "HALT {} STEPS {} DROP {} CARDS {taken} LINES {written}",
            ran.halt, ran.steps, ran.sequence
        ),
        format!("{} {} {}", state.index, state.height, state.mark),
        state.places.map(|number| number.to_string()).join(" "),
    ];
    parts.extend(store.iter().map(i64::to_string));
    parts.extend(trays.lines.iter().map(|line| format!("={line}")));
    parts.join(" | ")
}

#[test]
fn every_line_is_answered_as_written() {
    for (vectors, taken, counts) in VECTORS {
        let [requests, answers] = ["requests", "answers"].map(|end| lines(&format!("{vectors}.{end}")));
        let mut met: BTreeMap<&str, usize> = BTreeMap::new();
        for (index, (request, expected)) in requests.iter().zip(&answers).enumerate() {
            let word = request.split(' ').next().unwrap_or_default();
            *met.entry(word).or_default() += 1;
            if taken.contains(&word) {
                assert_eq!(
                    answer(request).as_ref(),
                    Some(expected),
                    "line {}: {request}",
                    index + 1
                );
            }
        }
        assert_eq!(met, BTreeMap::from(counts), "{vectors}");
    }
}
