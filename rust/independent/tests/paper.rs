//! The paper's own examples: P1-P12 and the printed one.

use independent::check::open;
use independent::compile::accept;
use independent::object::{pack, Tables};
use independent::operation::{ADD, CON, HLT, JMP};
use independent::program::program;
use independent::{check, Refusal};

/// Statements from column 7, or from column 1 if they begin with a number.
fn cards(statements: &[&str]) -> Vec<u8> {
    let card = |text: &&str| {
        let numbered = text.starts_with(|c: char| c.is_ascii_digit());
        let (number, text) = if numbered {
            text.split_once(' ').unwrap()
        } else {
            ("", *text)
        };
        format!("{:<80}", format!("{number:<6}{text}")).into_bytes()
    };
    statements.iter().flat_map(card).collect()
}

fn printed(control: &str, statements: &[&str]) -> String {
    let mut input = format!("{control:<80}").into_bytes();
    input.extend(cards(statements));
    program(&input)
}

/// The value printed for a name, and the sequence number of the first drop.
fn value(control: &str, statements: &[&str], name: &str) -> (i64, u32) {
    let text = printed(control, statements);
    let line = text
        .lines()
        .find_map(|line| line.strip_prefix(&format!("{name} ")))
        .unwrap();
    let drop = text.lines().next().and_then(|line| line.rsplit(' ').next()).unwrap();
    (line.parse().unwrap(), drop.parse().unwrap())
}

#[test]
fn the_printed_example() {
    let statements = ["I=47", "J=I*I*I", "STOP", "END"];
    assert_eq!(printed("5", &statements), "HALT 0 STEPS 9 DROP 2\nI 47\nJ 3823\n");
    assert_eq!(accept(5, &cards(&statements)).unwrap().1.to_bytes().len(), 232);
}

#[test]
fn p1_to_p4_and_p8() {
    assert_eq!(value("5", &["I=99999+1", "END"], "I"), (0, 1));
    assert_eq!(value("5", &["I=-99999-2", "END"], "I"), (-1, 1));
    assert_eq!(value("5", &["I=-7/2", "END"], "I"), (-3, 0));
    assert_eq!(value("5", &["I=300*400/100", "END"], "I"), (200, 1));
    assert_eq!(value("9", &["I=999999999*999999999", "END"], "I"), (1, 1));
}

#[test]
fn p5_to_p7() {
    let turns = |header: &str| {
        [
            header.to_string(),
            "M=M+1".into(),
            "L(M)=I".into(),
            "7 CONTINUE".into(),
            "END".into(),
        ]
    };
    let run = |header: &str, name: &str| {
        let body = turns(header);
        let mut statements = vec!["DIMENSIONL(9)"];
        statements.extend(body.iter().map(String::as_str));
        value("5", &statements, name)
    };
    assert_eq!((run("DO7I=5,3", "M"), run("DO7I=5,3", "I")), ((1, 0), (5, 0)));
    let taken = ["L(1)", "L(2)", "L(3)", "M"].map(|name| run("DO7I=1,10,4", name).0);
    assert_eq!(taken, [1, 5, 9, 3]);
    assert_eq!(
        (run("DO7I=99999,99999", "M"), run("DO7I=99999,99999", "I")),
        ((1, 0), (99999, 0))
    );
}

#[test]
fn p9_to_p12() {
    let object = |constants: &[u32], code: &[u32]| {
        let mut tables = Tables::empty(5);
        tables.constants = constants.to_vec();
        tables.code = code.to_vec();
        let bytes = tables.to_bytes();
        assert_eq!(open(&bytes), Ok(tables));
        bytes
    };
    let refused = Err(Refusal {
        number: 44,
        place: 0,
        kind: 0,
    });
    assert_eq!(check(&object(&[], &[pack(ADD, 0), pack(HLT, 0)])), refused);
    assert_eq!(check(&object(&[], &[pack(HLT, 0), pack(ADD, 0)])), Ok(()));
    assert_eq!(check(&object(&[1], &[pack(CON, 0), pack(JMP, 0)])), refused);
    assert_eq!(check(&object(&[], &[pack(JMP, 0)])), Ok(()));
}
