//! Every request of the vectors, answered and compared.

use std::fs;
use std::path::PathBuf;

use independent::batch::{answer, hexadecimal};
use independent::Level;

fn lines(path: &str) -> Vec<String> {
    let path = PathBuf::from(env!("CARGO_MANIFEST_DIR")).join("../../tests").join(path);
    let text = fs::read_to_string(&path).unwrap_or_else(|error| panic!("{}: {error}", path.display()));
    text.lines().map(str::to_string).collect()
}

fn answered_alike(level: Level, vectors: &str, count: usize) {
    let requests = lines(&format!("{vectors}.requests"));
    let answers = lines(&format!("{vectors}.answers"));
    assert_eq!((requests.len(), answers.len()), (count, count));
    let wrong: Vec<String> = requests
        .iter()
        .zip(&answers)
        .enumerate()
        .filter(|(_, (request, expected))| level.answer(request) != **expected)
        .map(|(index, (request, expected))| {
            format!(
                "line {}: {request}\n  expected {expected}\n  answered {}",
                index + 1,
                level.answer(request)
            )
        })
        .collect();
    assert!(wrong.is_empty(), "{} lines differ:\n{}", wrong.len(), wrong.join("\n"));
}

#[test]
fn every_vector_is_answered_alike() {
    answered_alike(Level::Base, "vectors/readings", 324);
}

#[test]
fn every_vector_of_cards_is_answered_alike() {
    answered_alike(Level::Cards, "vectors-02/level-1", 440);
}

#[test]
fn what_cannot_be_read_is_a_bad_request() {
    let stack = vec!["0"; 39].join(",");
    let short_state = format!("run 00 - 0,0,0,{stack} 1");
    let unreadable = [
        "",
        "check",
        "check ",
        "check 0",
        "check 0g",
        "check  00",
        "check 00 ",
        "Check 00",
        "map",
        "program",
        "compile 5 00",
        "compile -1 00 9",
        "compile 4294967296 00 9",
        "compile 5 00 4294967296",
        "bench 00 1,,2 5",
        "bench 00 , 5",
        "bench 00 +1 5",
        "bench 00 9223372036854775808 5",
        "bench 00 - -1",
        short_state.as_str(),
    ];
    for request in unreadable {
        assert_eq!(answer(request), "BAD REQUEST", "{request:?}");
    }
    assert_eq!(answer("check -"), "REFUSED 40 0 0");
    assert_eq!(answer("program -"), "REFUSED 1 0");
    assert_eq!(answer("compile 4294967295 - 0"), "REFUSED 1 0");
}

/// The requests that 2026-01 makes longer are not understood in their old form, nor the longer ones in the base.
#[test]
fn cards_and_lines_are_lent_from_their_level_on() {
    let state = vec!["0"; 43].join(",");
    for request in [
        "bench 00 - 5".to_string(),
        format!("run 00 - {state} 1"),
        "compile --1 00 9".into(),
    ] {
        assert_eq!(Level::Cards.answer(&request), "BAD REQUEST", "{request}");
    }
    for request in [
        "bench 00 - 5 - 0".to_string(),
        format!("run 00 - {state} 1 - 0"),
        "meaning 5 - 9 - - 0".into(),
    ] {
        assert_eq!(Level::Base.answer(&request), "BAD REQUEST", "{request}");
        assert_ne!(Level::Cards.answer(&request), "BAD REQUEST", "{request}");
    }
    assert_eq!(Level::Cards.answer("compile -1 - 0"), "REFUSED 1 0");
}

#[test]
fn a_deck_s_meaning_is_told() {
    let card = |text: &str| hexadecimal(format!("{text:<80}").as_bytes());
    let deck: String = [
        "      DIMENSION L(2)",
        "      READ 1, L",
        "    1 FORMAT(2I2)",
        "      PRINT 1, L",
        "    2 GO TO 2",
        "      END",
    ]
    .map(card)
    .concat();
    let meaning = |most: u32, cards: &str| Level::Cards.answer(&format!("meaning 5 {deck} {most} 7,8 {cards} 3"));
    assert_eq!(meaning(0, "-"), "RUNNING CARDS 0 LINES 0 | L(1) 7 | L(2) 8");
    assert_eq!(meaning(9, "-"), "HALT 9 DROP 0 CARDS 0 LINES 0 | L(1) 7 | L(2) 8");
    let read = card(" 3-4");
    assert_eq!(meaning(1, &read), "RUNNING CARDS 1 LINES 0 | L(1) 3 | L(2) -4");
    assert_eq!(meaning(9, &read), "RUNNING CARDS 1 LINES 1 | L(1) 3 | L(2) -4 | = 3-4");
    assert_eq!(Level::Cards.answer("meaning 5 - 9 - - 0"), "REFUSED 2 0");
}
