//! The subcommands on one deck or object, as a user meets them.

mod common;

use common::{file, luvinqata, top};

const GALE: &str = "HALT 0 STEPS 9 DROP 2\nI 47\nJ 3823\n";
const LOST: &str = "digits were lost, first at statement 2:\n";

fn path(path: &std::path::Path) -> &str {
    path.to_str().expect("a plain path")
}

#[test]
fn the_gale_in_every_form() {
    let text = std::fs::read(top("examples/gale.txt")).expect("the example");
    let cards = luvinqata::punch(&text).expect("short lines");
    let returns = String::from_utf8_lossy(&text).replace('\n', "\r\n");
    let open = text.strip_suffix(b"\n").expect("a last line end");
    for (name, bytes) in [
        ("text", &text[..]),
        ("cards", &cards[..]),
        ("returns", returns.as_bytes()),
        ("open", open),
    ] {
        let deck = file(&format!("gale-{name}"), bytes);
        let ended = luvinqata(&["run", path(&deck)], b"");
        assert_eq!((ended.status, ended.out.as_str()), (1, GALE), "{name}");
        assert_eq!(ended.told, format!("{LOST}card   3 |      J=I*I*I\n"), "{name}");
        assert_eq!(luvinqata(&["run", "-"], bytes).out, GALE, "{name}");
    }
    // Cards taken for text are one long line, text taken for cards is no whole number of cards.
    assert!(luvinqata(&["run", "--text", "-"], &cards)
        .told
        .contains("line 1 is longer"));
    assert_eq!(luvinqata(&["run", "--cards", "-"], &text).out, "REFUSED 2 0\n");
}

#[test]
fn digits_and_steps() {
    let deck = top("examples/gale.txt");
    let ended = luvinqata(&["run", "--digits", "6", path(&deck)], b"");
    assert_eq!((ended.status, ended.told.as_str()), (0, ""));
    assert_eq!(ended.out, "HALT 0 STEPS 9 DROP 0\nI 47\nJ 103823\n");
    let ended = luvinqata(&["run", path(&deck), "--steps", "3"], b"");
    assert_eq!(ended.out, "HALT 2 STEPS 3 DROP 0\nI 47\nJ 0\n");
    assert_eq!(
        (ended.status, ended.told.as_str()),
        (
            4,
            "halt 2: the steps allowed are used up, at statement 2:\ncard   3 |      J=I*I*I\n"
        )
    );
    assert_eq!(
        luvinqata(&["run", path(&deck), "--digits", "10"], b"").out,
        "REFUSED 1 0\n"
    );
}

/// A deck, what is printed of it, and what is told.
const REFUSALS: [(&str, &str, &str); 6] = [
    (
        "C     A COMMENT\n      I=1\n   10 J=2\nC     ANOTHER\n     1+LONGEST\n      END\n",
        "REFUSED 11 2\n",
        "refused 11: card 5, columns 8 to 14: LONGEST has seven characters: a name has six at most\n\
             card   3 |   10 J=2\ncard   5 |     1+LONGEST\n         |       ^^^^^^^\n",
    ),
    (
        "      I=1\n      i=2\n",
        "REFUSED 3 2\n",
        "refused 3: card 2, column 7: 'i' is lower case: cards hold capitals only\n\
             card   2 |      i=2\n         |      ^\n",
    ),
    (
        "      IF(I)10,20\n      END\n",
        "REFUSED 10 1\n",
        "refused 10: card 1, column 17: the statement breaks off after 'IF(I)10,20': \
             the third of three statement numbers is wanted here\n\
             card   1 |      IF(I)10,20\n         |                ^\n",
    ),
    // Both places of a number that is there twice.
    (
        "   10 I=1\n      J=2\n   10 K=3\n      END\n",
        "REFUSED 21 3\n",
        "refused 21: card 3, columns 4 to 5: the statement number 10 stands on card 1 too: \
             give one of the two another number\n\
             card   1 |   10 I=1\n         |   ^^\ncard   3 |   10 K=3\n         |   ^^\n",
    ),
    (
        "C\n",
        "REFUSED 20 0\n",
        "refused 20: the deck has no statement, only comments: it ends with END\n",
    ),
    (
        "",
        "REFUSED 2 0\n",
        "refused 2: the deck is empty: it needs one card at least, with END\n",
    ),
];

#[test]
fn a_refusal_shows_number_words_and_carets() {
    for (deck, printed, told) in REFUSALS {
        let ended = luvinqata(&["run", "-"], deck.as_bytes());
        assert_eq!(
            (ended.status, ended.out.as_str(), ended.told.as_str()),
            (2, printed, told)
        );
        let ended = luvinqata(&["compile", "-"], deck.as_bytes());
        assert_eq!((ended.status, ended.out.as_str(), ended.told.as_str()), (2, "", told));
    }
    let long = format!("      I=1\n{:81}\n      END\n", "      J=2");
    let ended = luvinqata(&["run", "-"], long.as_bytes());
    assert_eq!(
        ended.told,
        "luvinqata: -: line 2 is longer than the 80 columns of a card\n"
    );
    assert_eq!((ended.status, ended.out.as_str()), (2, ""));
}

#[test]
fn objects() {
    let (deck, object) = (top("examples/gale.txt"), file("gale.object", b""));
    let ended = luvinqata(&["compile", path(&deck), path(&object)], b"");
    assert_eq!(
        (ended.status, ended.out.as_str(), ended.told.as_str()),
        (0, "232 bytes\n", "")
    );
    assert_eq!(luvinqata(&["check", path(&object)], b"").out, "OK\n");
    assert_eq!(luvinqata(&["map", path(&object)], b"").out, "I 0 0 0\nJ 1 0 0\n");
    let mut bytes = std::fs::read(&object).expect("the object");
    bytes.push(0);
    for subcommand in ["check", "map"] {
        let ended = luvinqata(&[subcommand, "-"], &bytes);
        assert_eq!((ended.status, ended.out.as_str()), (2, "REFUSED 40 0 0\n"));
        assert!(ended.told.starts_with("refused 40: "));
    }
}

/// One that reads a card, and the same with a width of 0 in its FORMAT.
#[test]
fn objects_of_edition_two() {
    let deck = luvinqata::punch(b"      READ 1,I\n    1 FORMAT(I5)\n      END\n").expect("short lines");
    let (_, mut tables) = independent::Level::Cards.accept(5, &deck).expect("a right deck");
    let object = tables.to_bytes();
    assert_eq!(luvinqata(&["check", "-"], &object).out, "OK\n");
    assert_eq!(luvinqata(&["map", "-"], &object).out, "I 0 0 0\n");
    tables.words[0] -= 5;
    let ended = luvinqata(&["check", "-"], &tables.to_bytes());
    assert_eq!((ended.status, ended.out.as_str()), (2, "REFUSED 42 0 8\n"));
    assert!(ended
        .told
        .starts_with("refused 42 at entry 0 of body 8: a FORMAT's word"));
}

#[test]
fn the_examples() {
    let values = [
        ("sums", "NTOTAL 54"),
        (
            "sort",
            "LIST(1) -9\nLIST(2) 4\nLIST(3) 5\nLIST(4) 8\nLIST(5) 15\nLIST(6) 26\nLIST(7) 31\nLIST(8) 53",
        ),
        ("search", "MFOUND 10"),
    ];
    for (name, value) in values {
        let ended = luvinqata(&["run", path(&top(&format!("examples/{name}.txt")))], b"");
        assert_eq!((ended.status, ended.told.as_str()), (0, ""), "{name}");
        assert!(ended.out.starts_with("HALT 0 "), "{name}");
        for line in value.lines() {
            assert!(ended.out.lines().any(|shown| shown == line), "{name}: {line}");
        }
    }
}

const WRONG: [&[&str]; 18] = [
    &[],
    &["walk"],
    &["run"],
    &["run", "a", "b"],
    &["run", "--fast", "a"],
    &["run", "--digits", "five", "a"],
    &["run", "a", "--digits"],
    &["run", "a", "--cards", "--text"],
    &["run", "a", "--set", "I"],
    &["run", "a", "--set", "I=1.5"],
    &["compile", "--steps", "9", "a"],
    &["check", "--text", "a"],
    &["batch", "--cards"],
    &["run", "no/such/deck"],
    &["hours", "a"],
    &["hours", "-", "-"],
    &["hours", "a", "b", "--chart", "I,J"],
    &["hours", "a", "b", "--threads", "0"],
];

#[test]
fn help_and_wrong_use() {
    let all = luvinqata(&["--help"], b"");
    for subcommand in ["run", "compile", "check", "map", "hours", "batch", "completions"] {
        let ended = luvinqata(&[subcommand, "--help"], b"");
        assert_eq!(ended.status, 0);
        assert!(ended.out.contains(&format!("Usage: luvinqata {subcommand}")));
        assert!(ended.out.contains("\nexample: "));
        assert!(all.out.contains(&format!("\n  {subcommand} ")));
    }
    assert_eq!(
        luvinqata(&["--version"], b"").out,
        concat!("luvinqata ", env!("CARGO_PKG_VERSION"), "\n")
    );
    assert!(luvinqata(&["completions", "bash"], b"").out.contains("--keep-inputs"));
    for arguments in WRONG {
        let ended = luvinqata(arguments, b"");
        assert_eq!((ended.status, ended.out.as_str()), (2, ""), "{arguments:?}");
        assert!(!ended.told.is_empty(), "{arguments:?}");
    }
    assert!(luvinqata(&["run", "no/such/deck"], b"").told.contains("no/such/deck"));
    let many = luvinqata(&["run", "--steps", "5000000000", "a"], b"");
    assert!(
        many.told.contains("--steps") && many.told.contains("5000000000"),
        "{}",
        many.told
    );
}

#[test]
fn options_as_other_tools_have_them() {
    let gale = top("examples/gale.txt");
    let nine = "HALT 0 STEPS 9 DROP 0\nI 47\nJ 103823\n";
    for arguments in [
        &["run", "--digits=9", path(&gale)][..],
        &["run", "--digits", "9", "--", path(&gale)],
        &["run", path(&gale), "--digits", "9"],
    ] {
        assert_eq!(luvinqata(arguments, b"").out, nine, "{arguments:?}");
    }
}
