//! Every halt and every refusal of the calls on objects, and the edges of stack and object, each met once on purpose.

mod common;

use std::fs::read_to_string;
use std::path::Path;

use independent::object::{
    pack, word, DoEntry, Edition, ElementEntry, ItemEntry, NameEntry, SubscriptEntry, Tables, TransferEntry,
};
use independent::operation::*;
use independent::{Ran, Refusal, State};
use luvinqata::Trays;

/// Five digits, three cells, constants 1 and 0, one exit table of each sort, one element, one DO, one name.
fn tables(code: Code) -> Tables {
    let plain = SubscriptEntry {
        multiplier: 1,
        cell: 0,
        addend: 0,
    };
    let one = SubscriptEntry {
        multiplier: 0,
        cell: 0,
        addend: 1,
    };
    let mut t = Tables::empty(5);
    t.cells = 3;
    t.constants = vec![1, 0];
    t.elements = vec![ElementEntry {
        base: 0,
        rows: 3,
        columns: 1,
        subscripts: [plain, one],
    }];
    t.exits = vec![2, 0, 0];
    t.dos = vec![DoEntry {
        variable: 0,
        limit: 1,
        step: 2,
        body: 0,
    }];
    t.names = vec![NameEntry {
        name: *b"L       ",
        first: 0,
        rows: 3,
        columns: 0,
    }];
    t.code = code
        .iter()
        .map(|(operation, operand)| pack(*operation, *operand))
        .collect();
    t
}

/// The same in edition 2, with a transfer of cell 0 by `FORMAT(I5)`.
fn card_tables(code: Code) -> Tables {
    let mut t = tables(code);
    t.edition = Edition::Two;
    t.words = vec![pack(word::NUMBER, 5), pack(word::END, 0)];
    t.items = vec![ItemEntry { first: 0, count: 1 }];
    t.transfers = vec![TransferEntry {
        format: 0,
        first: 0,
        count: 1,
    }];
    t
}

/// Operations and operands.
type Code = &'static [(u32, u32)];

#[test]
fn every_halt() {
    let cases: [(u32, u32, Code); 9] = [
        (0, 1, &[(HLT, 0)]),
        (1, 1, &[(HLT, 1)]),
        (2, 100, &[(JMP, 0)]),
        (3, 3, &[(CON, 0), (CON, 1), (DIV, 0), (HLT, 0)]),
        (4, 1, &[(LDE, 0), (HLT, 0)]),
        (5, 2, &[(CON, 1), (BRC, 0), (HLT, 0)]),
        (6, 1, &[(DOE, 0), (HLT, 0)]),
        (7, 1, &[(ADD, 0), (HLT, 0)]),
        (8, 1, &[(ADD, 1), (HLT, 0)]),
    ];
    for (halt, steps, code) in cases {
        let object = tables(code).to_bytes();
        let expected = Ran {
            halt,
            steps,
            sequence: 0,
        };
        let (mut store, mut state) = ([0; 3], State::fresh());
        assert_eq!(common::bench(&object, &mut store, &mut state, 100), Ok(expected));
        if halt < 7 {
            let (mut run_store, mut run_state) = ([0; 3], State::fresh());
            assert_eq!(common::run(&object, &mut run_store, &mut run_state, 100), Ok(expected));
            assert_eq!((run_store, run_state), (store, state));
        }
    }
}

/// No card, no room, no number, and a field past the last column: cell, cards and lines are as before.
#[test]
fn every_halt_of_a_transfer() {
    let card = |text: &str| format!("{text:80}").into_bytes();
    let mut wide = card_tables(&[(PRINT, 0), (HLT, 1)]);
    wide.words[0] = pack(word::NUMBER, 133);
    let (reads, prints) = (
        card_tables(&[(READ, 0), (HLT, 1)]),
        card_tables(&[(PRINT, 0), (HLT, 1)]),
    );
    let cases = [
        (1, &reads, card("   47"), 0),
        (1, &prints, Vec::new(), 1),
        (9, &reads, Vec::new(), 1),
        (9, &prints, card("   47"), 0),
        (10, &reads, card("   4A"), 0),
        (10, &wide, Vec::new(), 1),
    ];
    for (halt, tables, cards, room) in cases {
        for call in [common::run_with, common::bench_with] {
            let (mut store, mut state, mut trays) = ([5; 3], State::fresh(), Trays::new(&cards, room));
            let ran = call(&tables.to_bytes(), &mut store, &mut state, &mut trays, 9).expect("a right object");
            assert_eq!((ran.halt, ran.steps), (halt, if halt == 1 { 2 } else { 1 }));
            if halt != 1 {
                assert_eq!((store, state), ([5; 3], State::fresh()));
                assert_eq!(trays, Trays::new(&cards, room));
            }
        }
    }
}

/// Exactly forty numbers on the stack are right, and a run goes on from them; one more has no height.
#[test]
fn forty_places() {
    let with = |pushes: usize, fold: usize| {
        let mut t = tables(&[]);
        t.code = vec![pack(CON, 0); pushes];
        t.code.extend(vec![pack(ADD, 0); fold]);
        t.code.extend([pack(STO, 2), pack(HLT, 0)]);
        t.to_bytes()
    };
    let full = with(40, 39);
    let (mut store, mut state) = ([0; 3], State::fresh());
    let ran = common::run(&full, &mut store, &mut state, 40).unwrap();
    assert_eq!((ran.halt, state.height, state.places), (2, 40, [1; 40]));
    let ran = common::run(&full, &mut store, &mut state, 41).unwrap();
    assert_eq!((ran.halt, ran.steps, store, state.places), (0, 41, [0, 0, 40], [0; 40]));
    assert_eq!(common::check(&with(41, 40)), Err(Refusal::whole(44)));
    let benched = common::bench(&with(41, 40), &mut [0; 3], &mut state, 99).unwrap();
    assert_eq!((benched.halt, benched.steps, state.height), (7, 41, 40));
}

/// No object is longer than the constant says.
#[test]
fn the_longest_object() {
    assert_eq!(luvinqata::LONGEST_OBJECT, Edition::Two.longest());
}

/// docs/OBJECT.md has the bodies and the sizes of each edition.
#[test]
fn the_page_of_the_object() {
    let page = Path::new(env!("CARGO_MANIFEST_DIR")).join("../../docs/OBJECT.md");
    let page = read_to_string(page).expect("the page");
    let row = |line: &str| -> Vec<String> { line.split('|').map(|field| field.trim().to_string()).collect() };
    let rows: Vec<Vec<String>> = page.lines().map(|line| row(line.trim_matches('|'))).collect();
    for edition in [Edition::One, Edition::Two] {
        let word = edition.word().to_string();
        for (kind, (bytes, limit)) in (1..).zip(edition.entry_bytes().iter().zip(edition.entry_limits())) {
            let said = [kind, *bytes, *limit].map(|number| number.to_string());
            let says = |row: &Vec<String>| match &row[..] {
                [kind, _, _, bytes, limit, editions] => {
                    [kind, bytes, limit] == said.each_ref() && editions.contains(&word)
                }
                _ => false,
            };
            assert!(rows.iter().any(says), "edition {word}: {said:?}");
        }
        let sizes = [edition.bodies(), edition.contents_bytes(), edition.longest()].map(|size| size.to_string());
        assert!(
            rows.iter().any(|row| row[0] == word && row[1..] == sizes),
            "edition {word}"
        );
    }
}

#[test]
fn every_refusal() {
    let right = tables(&[(CON, 0), (STO, 0), (HLT, 0)]);
    let mut long = right.clone();
    long.k = 10;
    let mut constant = right.clone();
    constant.constants.push(100_000);
    let operation = tables(&[(HLT, 0), (16, 0)]);
    let heights = tables(&[(ADD, 0), (HLT, 0)]);
    let [mut format, mut item, mut transfer] = [(); 3].map(|()| card_tables(&[(HLT, 0)]));
    format.words[0] = pack(word::NUMBER, 0);
    item.items[0].count = 4;
    transfer.transfers[0].format = 1;
    let entry = card_tables(&[(HLT, 0), (READ, 1)]);
    let cases = [
        (40, 0, 0, right.to_bytes()[1..].to_vec()),
        (41, 0, 0, long.to_bytes()),
        (42, 2, 1, constant.to_bytes()),
        (42, 0, 8, format.to_bytes()),
        (42, 0, 9, item.to_bytes()),
        (42, 0, 10, transfer.to_bytes()),
        (43, 1, 5, operation.to_bytes()),
        (43, 1, 5, entry.to_bytes()),
        (44, 0, 0, heights.to_bytes()),
    ];
    for (number, place, kind, object) in cases {
        let refusal = Refusal { number, place, kind };
        assert_eq!(common::check(&object), Err(refusal));
        let (mut store, mut state, mut table) = ([7; 3], State::fresh(), [9; 40]);
        assert_eq!(common::run(&object, &mut store, &mut state, 9), Err(refusal));
        assert_eq!(common::map(&object, &mut table), Err(refusal));
        if number < 42 {
            assert_eq!(common::bench(&object, &mut store, &mut state, 9), Err(refusal));
        }
        assert_eq!((store, state, table), ([7; 3], State::fresh(), [9; 40]));
    }

    let object = right.to_bytes();
    assert_eq!(common::check(&object), Ok(()));
    let mut short = [9; 19];
    assert_eq!(common::map(&object, &mut short), Err(Refusal::whole(30)));
    assert_eq!(short, [9; 19]);
    for (number, store) in [
        (50, vec![]),
        (50, vec![0, 0]),
        (51, vec![0, 0, 100_000]),
        (51, vec![0, i64::MIN, 0]),
    ] {
        for call in [common::run, common::bench] {
            let (mut lent, mut state) = (store.clone(), State::fresh());
            assert_eq!(call(&object, &mut lent, &mut state, 9), Err(Refusal::whole(number)));
            assert_eq!((lent, state), (store.clone(), State::fresh()));
        }
    }
    // Index, height, mark, bottom of the stack.
    let states = [
        (3, 0, 0, 0),
        (1, 0, 0, 0),
        (0, 1, 0, 0),
        (1, 1, 4, 0),
        (1, 1, 0, 100_000),
        (1, 1, 0, i64::MIN),
    ];
    for (index, height, mark, bottom) in states {
        let mut state = State::fresh();
        (state.index, state.height, state.mark, state.places[0]) = (index, height, mark, bottom);
        let (given, mut store) = (state, [5; 3]);
        assert_eq!(common::run(&object, &mut store, &mut state, 9), Err(Refusal::whole(52)));
        assert_eq!((store, state), ([5; 3], given));
    }
}
