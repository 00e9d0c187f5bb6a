//! What the calls leave of all that they are lent and answer.

use independent::generate::{self, Rng};
use independent::{Lent, Level};

use super::*;

fn object(words: &[u32]) -> Vec<u8> {
    words.iter().copied().flat_map(u32::to_le_bytes).collect()
}

/// No name and no cell; the code is HLT 1.
fn halting() -> Vec<u8> {
    object(&[
        1, 5, 0, 7, 1, 100, 0, 2, 100, 0, 3, 100, 0, 4, 100, 0, 5, 100, 4, 6, 104, 0, 7, 104, 0, 1,
    ])
}

/// One cell; the code is READ 0, PRINT 0, HLT 1, by FORMAT(I5).
fn copying() -> Vec<u8> {
    let contents = [
        2, 5, 1, 10, 1, 136, 0, 2, 136, 0, 3, 136, 0, 4, 136, 0, 5, 136, 12, 6, 148, 0, 7, 148, 0, 8, 148, 8, 9, 156,
        8, 10, 164, 12,
    ];
    let (code, format) = ([0x1000_0000, 0x1100_0000, 1], [0x0100_0005, 0x0500_0000]);
    let (items, transfers) = ([0, 1], [0, 0, 1]);
    object(&[&contents[..], &code, &format, &items, &transfers].concat())
}

/// "On a refusal every result but number, place and kind is 0"; on success these three are 0.
#[test]
fn what_does_not_count_is_zero() {
    for call in [run, bench] {
        let refused = call(b"", &mut [], &mut State::fresh(), &[0; 80], &mut [0; 132], 9);
        assert_eq!(
            (refused.number, refused.halt, refused.steps, refused.sequence),
            (40, 0, 0, 0)
        );
        assert_eq!((refused.cards, refused.lines), (0, 0));
        let ran = call(&halting(), &mut [], &mut State::fresh(), &[], &mut [], 9);
        assert_eq!((ran.number, ran.place, ran.kind), (0, 0, 0));
    }
    let refused = compile(5, b"", &mut []);
    assert_eq!((refused.number, refused.length), (2, 0));
    let written = compile(5, format!("{:80}", "      END").as_bytes(), &mut [0; 200]);
    assert_eq!((written.number, written.place, written.kind), (0, 0, 0));
    let refused = map(b"", &mut []);
    assert_eq!((refused.number, refused.length), (40, 0));
    let written = map(&halting(), &mut []);
    assert_eq!((written.number, written.place, written.kind), (0, 0, 0));
    let passed = check(&halting());
    assert_eq!((passed.number, passed.place, passed.kind), (0, 0, 0));
}

/// A card or a line is whole, and what is lent for lines and not written stays.
#[test]
fn what_is_past_the_cards_and_the_lines() {
    let card = format!("{:80}{:79}", "   47", "   48").into_bytes();
    for call in [run, bench] {
        for (taken, room, halt, cards, lines) in [(159, 314, 1, 1, 1), (79, 314, 9, 0, 0), (80, 131, 9, 1, 0)] {
            let mut lent = vec![0xA5; room];
            let (mut store, mut state) = ([0], State::fresh());
            let ran = call(&copying(), &mut store, &mut state, &card[..taken], &mut lent, 9);
            assert_eq!((ran.number, ran.halt, ran.cards, ran.lines), (0, halt, cards, lines));
            let (line, rest) = lent.split_at(132 * lines);
            assert_eq!(line, &format!("{:132}", "   47").as_bytes()[..line.len()]);
            assert!(rest.iter().all(|byte| *byte == 0xA5));
            assert_eq!(store, [47 * cards as i64]);
        }
    }
}

/// Of generated decks too, where they halt amid a PRINT too: just the lines that are counted are written.
#[test]
fn no_other_line_is_written() {
    let mut halts = [0; 11];
    for seed in 0..2_000 {
        let mut rng = Rng::new(seed);
        let made = generate::ordinary_deck_at(Level::Cards, &mut rng);
        let (_, tables) = Level::Cards.accept(made.k, &made.deck).expect("an ordinary deck");
        let (object, cards) = (tables.to_bytes(), generate::cards(&mut rng));
        let start = generate::store(&mut rng, made.k, tables.cells as usize);
        let room = rng.below(12);
        let mut lent = Lent::new(&cards, room);
        let theirs = Level::Cards.run(
            &object,
            &mut start.clone(),
            &mut independent::State::fresh(),
            200,
            &mut lent,
        );
        let mut expected = lent.lines().concat();
        expected.resize(132 * room + rng.below(132), 0xA5);
        for call in [run, bench] {
            let mut lines = vec![0xA5; expected.len()];
            let ran = call(
                &object,
                &mut start.clone(),
                &mut State::fresh(),
                &cards,
                &mut lines,
                200,
            );
            assert_eq!(Ok(ran.halt), theirs.map(|ran| ran.halt), "seed {seed}");
            assert_eq!(
                (ran.cards, ran.lines),
                (lent.taken(), lent.lines().len()),
                "seed {seed}"
            );
            assert!(lines == expected, "seed {seed}");
            halts[ran.halt as usize] += 1;
        }
    }
    assert!(halts[9] > 100 && halts[10] > 100, "{halts:?}");
}
