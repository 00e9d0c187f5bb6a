//! The lines of the vectors, answered as they are written, and lines that cannot be read. Compiling still writes edition 1, so the lines that
//! compile are the base's; objects are taken as 2026-01 takes them, so the lines about objects are that request's.

mod common;

use std::collections::BTreeMap;
use std::fs;

/// A file of vectors, the words whose lines are taken, and how many lines begin with each word.
type Vectors = (&'static str, &'static [&'static str], [(&'static str, usize); 6]);

const VECTORS: [Vectors; 2] = [
    (
        "vectors/readings",
        &["compile", "program"],
        [
            ("bench", 16),
            ("check", 56),
            ("compile", 178),
            ("map", 1),
            ("program", 51),
            ("run", 22),
        ],
    ),
    (
        "vectors-02/level-1",
        &["bench", "check", "map", "run"],
        [
            ("bench", 46),
            ("check", 66),
            ("compile", 247),
            ("map", 1),
            ("program", 58),
            ("run", 22),
        ],
    ),
];

#[test]
fn every_line_is_answered_as_written() {
    for (vectors, taken, counts) in VECTORS {
        let read = |end: &str| fs::read_to_string(common::top("tests").join(format!("{vectors}.{end}")));
        let [requests, answers] = ["requests", "answers"].map(|end| read(end).expect("the vectors"));
        let word = |request: &str| request.split(' ').next().unwrap_or_default().to_string();
        let mut met: BTreeMap<String, usize> = BTreeMap::new();
        requests
            .lines()
            .for_each(|request| *met.entry(word(request)).or_default() += 1);
        let counts = counts.map(|(word, count)| (word.to_string(), count));
        assert_eq!(met, BTreeMap::from(counts), "{vectors}");

        let lines = requests.lines().zip(answers.lines());
        let (requests, answers): (Vec<&str>, Vec<&str>) = lines
            .filter(|(request, _)| taken.contains(&word(request).as_str()))
            .unzip();
        let ended = common::luvinqata(&["batch"], (requests.join("\n") + "\n").as_bytes());
        assert_eq!((ended.status, ended.told.as_str()), (0, ""));
        for ((answer, expected), request) in ended.out.lines().zip(&answers).zip(requests) {
            assert_eq!(answer, *expected, "{request}");
        }
        assert_eq!(ended.out, answers.join("\n") + "\n");
    }
}

#[test]
fn what_cannot_be_read_is_a_bad_request() {
    let short = format!("run 00 - 0,0,0,{} 1 - 0", vec!["0"; 39].join(","));
    let without = format!("run 00 - 0,0,0,{} 1", vec!["0"; 40].join(","));
    let requests = [
        "",
        "check",
        "check ",
        "check 0",
        "check 0g",
        "check  00",
        "check 00 ",
        "Check 00",
        "map",
        "program",
        "compile 5 00",
        "compile -1 00 9",
        "compile 4294967296 00 9",
        "compile 5 00 4294967296",
        "bench 00 1,,2 5 - 0",
        "bench 00 , 5 - 0",
        "bench 00 +1 5 - 0",
        "bench 00 9223372036854775808 5 - 0",
        "bench 00 - -1 - 0",
        "bench 00 - 5",
        "bench 00 - 5 -",
        "bench 00 - 5 0 0",
        "bench 00 - 5 - -1",
        "bench 00 - 5 - 1048577",
        "check \u{e9}",
        &short,
        &without,
    ];
    let ended = common::luvinqata(&["batch"], format!("{}\n", requests.join("\n")).as_bytes());
    assert_eq!(ended.out, "BAD REQUEST\n".repeat(requests.len()));
    let right = "check -\r\nprogram -\ncompile 4294967295 - 0\nmap -\nbench 00 - 5 - 1048576";
    let ended = common::luvinqata(&["batch"], right.as_bytes());
    assert_eq!(
        ended.out,
        "REFUSED 40 0 0\nREFUSED 1 0\nREFUSED 1 0\nREFUSED 40 0 0\nREFUSED 40 0 0\n"
    );
}
