//! The checker at the edges of 41 and 42: the last right word and the first wrong one.

use independent::object::{
    pack, DoEntry, ElementEntry, NameEntry, StatementEntry, SubscriptEntry, Tables, CONTENTS_BYTES, ENTRY_BYTES,
};
use independent::operation::HLT;
use independent::{check, Refusal};

/// Two digits, six cells, three instructions, and one right entry in each other body.
fn small() -> Tables {
    let one = SubscriptEntry {
        multiplier: 0,
        cell: 0,
        addend: 1,
    };
    let mut tables = Tables::empty(2);
    tables.cells = 6;
    tables.constants = vec![0];
    tables.elements = vec![ElementEntry {
        base: 1,
        rows: 2,
        columns: 2,
        subscripts: [one, one],
    }];
    tables.exits = vec![0];
    tables.dos = vec![DoEntry {
        variable: 0,
        limit: 0,
        step: 0,
        body: 0,
    }];
    tables.code = vec![pack(HLT, 0); 3];
    tables.statements = vec![StatementEntry {
        sequence: 1,
        number: 0,
        address: 0,
    }];
    tables.names = vec![NameEntry {
        name: *b"I       ",
        first: 0,
        rows: 2,
        columns: 2,
    }];
    tables
}

/// The small object with one word of a body's only entry changed.
fn with_word(kind: usize, word: usize, value: i64) -> Vec<u8> {
    let tables = small();
    let before: usize = tables.bodies()[..kind - 1].iter().map(Vec::len).sum();
    let at = CONTENTS_BYTES + before + 4 * word;
    let mut object = tables.to_bytes();
    object[at..at + 4].copy_from_slice(&(value as u32).to_le_bytes());
    object
}

#[test]
fn the_last_right_word_and_the_first_wrong_one() {
    // Kind, word, right values, wrong values; a value below 0 is a signed word.
    let edges: [(usize, usize, &[i64], &[i64]); 20] = [
        (1, 0, &[0, 99], &[100, 4_294_967_295]),
        (2, 0, &[0, 2], &[3, 4_294_967_295]),
        (2, 1, &[1, 2], &[0, 3, 2_147_483_648]),
        (2, 2, &[1, 2], &[0, 3, 2_147_483_648]),
        (2, 3, &[0, 99], &[100, 4_294_967_295]),
        (2, 4, &[0, 5], &[6, 4_294_967_295]),
        (2, 5, &[0, 99, -99], &[100, -100, -2_147_483_648]),
        (2, 6, &[0, 99], &[100, 4_294_967_295]),
        (2, 7, &[0, 5], &[6, 4_294_967_295]),
        (2, 8, &[0, 99, -99], &[100, -100, -2_147_483_648]),
        (4, 0, &[0, 5], &[6, 4_294_967_295]),
        (4, 1, &[0, 5], &[6, 4_294_967_295]),
        (4, 2, &[0, 5], &[6, 4_294_967_295]),
        (4, 3, &[0, 2], &[3, 4_294_967_295]),
        (6, 0, &[0, 4_294_967_295], &[]),
        (6, 1, &[0, 4_294_967_295], &[]),
        (6, 2, &[0, 2], &[3, 4_294_967_295]),
        (7, 2, &[0, 2], &[3, 4_294_967_295]),
        (7, 3, &[1, 3], &[0, 4, 4_294_967_295]),
        (7, 4, &[0, 1, 3], &[4, 4_294_967_295]),
    ];
    for (kind, word, right, wrong) in edges {
        for value in right {
            assert_eq!(
                check(&with_word(kind, word, *value)),
                Ok(()),
                "kind {kind} word {word} {value}"
            );
        }
        let refused = Err(Refusal {
            number: 42,
            place: 0,
            kind: kind as u32,
        });
        for value in wrong {
            assert_eq!(
                check(&with_word(kind, word, *value)),
                refused,
                "kind {kind} word {word} {value}"
            );
        }
    }
    // Every word of these bodies is in the list, but for the letters of a name.
    let words: usize = [1, 2, 4, 6, 7].iter().map(|kind| ENTRY_BYTES[kind - 1] / 4).sum();
    assert_eq!(edges.len(), words - 2);
}

#[test]
fn tables_at_their_limits_and_one_over() {
    fn to<T: Clone>(table: &mut Vec<T>, length: usize) {
        let entry = table[0].clone();
        table.resize(length, entry);
    }
    let limits = [256, 256, 1024, 64, 4096, 400, 100];
    for (index, limit) in limits.into_iter().enumerate() {
        for (length, expected) in [
            (limit, Ok(())),
            (
                limit + 1,
                Err(Refusal {
                    number: 41,
                    place: 0,
                    kind: 0,
                }),
            ),
        ] {
            let mut tables = small();
            match index + 1 {
                1 => to(&mut tables.constants, length),
                2 => to(&mut tables.elements, length),
                3 => to(&mut tables.exits, length),
                4 => to(&mut tables.dos, length),
                5 => to(&mut tables.code, length),
                6 => to(&mut tables.statements, length),
                _ => to(&mut tables.names, length),
            }
            assert_eq!(
                check(&tables.to_bytes()),
                expected,
                "kind {} length {length}",
                index + 1
            );
        }
    }
    for (cells, expected) in [
        (4096, Ok(())),
        (
            4097,
            Err(Refusal {
                number: 41,
                place: 0,
                kind: 0,
            }),
        ),
    ] {
        let tables = Tables { cells, ..small() };
        assert_eq!(check(&tables.to_bytes()), expected);
    }
}
