//! The proved program `deck1401`, which `tools/program` builds: what it prints for the vectors and for generated inputs.

mod common;

use std::fs;

use independent::generate::{self, Rng};

const LINES: usize = 51;
const INPUTS: u64 = 1_000;

fn printed(input: &[u8]) -> String {
    let program = common::top("target/bin/deck1401");
    let ended = common::run::<&str>(&program, &[], input);
    assert_eq!((ended.status, ended.told.as_str()), (0, ""));
    ended.out
}

fn bytes(hex: &str) -> Vec<u8> {
    (0..hex.len() / 2)
        .map(|i| u8::from_str_radix(&hex[2 * i..2 * i + 2], 16).expect("hexadecimal"))
        .collect()
}

#[test]
fn the_vectors_are_printed_as_written() {
    let read = |name: &str| fs::read_to_string(common::top("tests/vectors").join(name)).expect("the vectors");
    let (requests, answers) = (read("readings.requests"), read("readings.answers"));
    let mut lines = 0;
    for (request, answer) in requests.lines().zip(answers.lines()) {
        if let Some(input) = request.strip_prefix("program ") {
            let lines_printed: Vec<String> = printed(&bytes(input)).lines().map(String::from).collect();
            assert_eq!(lines_printed.join(" | "), answer, "{request}");
            lines += 1;
        }
    }
    assert_eq!(lines, LINES);
}

#[test]
fn generated_inputs_are_printed_alike() {
    let mut ran = 0;
    for seed in 0..INPUTS {
        let mut rng = Rng::new(seed);
        let made = generate::deck(&mut rng);
        let mut input = vec![b' '; 80];
        input[0] = *rng.pick(b"123456789 0A");
        if rng.chance(5) {
            let column = rng.below(80);
            input[column] = *rng.pick(b" 5X\n");
        }
        input.extend_from_slice(&made.deck);
        if rng.chance(5) {
            let length = rng.below(input.len() + 1);
            input.truncate(length);
        }
        let expected = independent::program::program(&input);
        assert_eq!(printed(&input), expected, "seed {seed}");
        ran += u32::from(expected.starts_with("HALT"));
    }
    assert!(ran > 100, "{ran} inputs were run");
}

#[test]
fn an_input_of_any_length_is_answered() {
    for cards in [0, 1, 512, 513, 5_000] {
        for more in [0, 1, 79] {
            let mut input = vec![b' '; 80];
            for _ in 0..cards {
                input.push(b'C');
                input.resize(input.len() + 79, b' ');
            }
            input.resize(input.len() + more, b' ');
            assert_eq!(
                printed(&input),
                independent::program::program(&input),
                "{cards} cards and {more} bytes"
            );
        }
    }
}
