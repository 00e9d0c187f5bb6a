//! What a program says of itself, and an hour run by it.

mod common;

use independent::compile::accept;
use independent::generate::{self, Rng};
use luvinqata::{Cards, Halt, Lines, Program, Rule, State, Store, Trays};

const CASES: u64 = 2_000;

/// Digits, cells, names and statements are those of the tables; where digits were lost first is the statement at that
/// instruction.
#[test]
fn a_program_says_what_its_object_holds() {
    let mut losses = 0;
    for seed in 0..CASES {
        let mut rng = Rng::new(seed);
        let made = generate::ordinary_deck(&mut rng);
        let Ok((_, tables)) = accept(made.k, &made.deck) else {
            continue;
        };
        let program = Program::compile(made.k, &made.deck).expect("an accepted deck");
        assert_eq!((program.digits(), program.cells()), (tables.k, tables.cells as usize));
        let names = tables.names.iter().map(|name| (name.text(), name.first as usize));
        let ours = program.names().iter().map(|name| (name.text.clone(), name.first));
        assert!(ours.eq(names), "seed {seed}");
        let statements = tables.statements.iter().map(|s| (s.sequence, s.number, s.address));
        let ours = program.statements().iter().map(|s| (s.sequence, s.number, s.address));
        assert!(ours.eq(statements), "seed {seed}");

        let (mut store, mut state) = (generate::store(&mut rng, made.k, program.cells()), State::fresh());
        let ran = luvinqata::run(program.object(), &mut store, &mut state, 3_000).expect("a right store");
        if state.mark > 0 {
            state.index = state.mark - 1;
            let lost = program.statement_at(&state).expect("a statement");
            assert_eq!(lost.sequence, ran.sequence, "seed {seed}");
            losses += 1;
        }
    }
    assert!(losses > 100, "{losses} losses");
}

/// An hour in parts, its state kept as bytes between them, ends as the plain calls in one run do.
#[test]
fn an_hour_in_parts_is_the_run() {
    let mut halts = [0; 7];
    for seed in 0..CASES {
        let mut rng = Rng::new(seed);
        let made = generate::ordinary_deck(&mut rng);
        let Ok(program) = Program::compile(made.k, &made.deck) else {
            continue;
        };
        let (mut store, mut state) = (Store::new(program.object()).expect("a program"), State::fresh());
        let mut hour = program.start();
        for (name, _) in store.clone().iter() {
            let value = generate::value(&mut rng, made.k);
            assert_eq!(
                (hour.set(&name, value), store.set(&name, value)),
                (Ok(()), Some(0)),
                "seed {seed}"
            );
        }
        let ran = luvinqata::run(program.object(), store.cells_mut(), &mut state, 500).expect("a right store");
        let answer = hour.run(rng.below(40) as u32).expect("right values");
        let (steps, kept) = (answer.steps(), answer.state().to_bytes());
        let hour = program.resume(answer.cells().to_vec(), State::from_bytes(&kept));
        let answer = hour.run(7).and_then(|answer| {
            let left = 500 - steps - answer.steps();
            let ended = answer.halt() != Halt::Allowance;
            if ended {
                Ok(answer)
            } else {
                answer.resume(left)
            }
        });
        let answer = answer.expect("what a run left");
        assert_eq!(
            (answer.halt(), answer.lost().unwrap_or(0)),
            (ran.halt, ran.sequence),
            "seed {seed}"
        );
        assert_eq!((answer.cells(), *answer.state()), (store.cells(), state), "seed {seed}");
        assert!(answer.values().eq(store.iter()), "seed {seed}");
        assert!(
            store.iter().all(|(name, value)| answer.get(&name) == Some(value)),
            "seed {seed}"
        );
        halts[ran.halt.number() as usize] += 1;
    }
    assert!(halts.iter().all(|count| *count > 0), "{halts:?}");
}

/// What a run cannot go on from is refused, and nothing is made of it.
#[test]
fn an_hour_goes_on_only_from_what_fits() {
    let deck = luvinqata::punch(b"      I=I+1\n      END").expect("short lines");
    let program = Program::compile(5, &deck).expect("a right deck");
    let refused = |cells: &[i64], state: State| program.resume(cells.to_vec(), state).run(9).expect_err("wrong").rule;
    assert_eq!(refused(&[], State::fresh()), Rule::StoreLength);
    assert_eq!(refused(&[100_000], State::fresh()), Rule::StoreDigits);
    assert_eq!(refused(&[0], State::from_bytes(&[1; State::BYTES])), Rule::State);
    assert!(program.resume(Vec::new(), State::fresh()).set("I", 1).is_err());
}

/// Each halt is told at the statement that halted, though digits were lost before.
#[test]
fn a_state_stands_at_the_statement_that_halted() {
    let cases = [
        ("      I=99999+1\n      STOP\n      END", 0, 2),
        ("      I=1\n      I=2", 1, 3),
        ("   10 I=I+1\n      GO TO 10", 2, 1),
        ("      I=99999+1\n      DO 7 K=1,3\n    7 J=1/I", 3, 3),
        ("      DIMENSION L(2)\n      I=3\n      L(I)=1", 4, 3),
        ("      I=99999*2\n      GO TO (7,7),J\n    7 CONTINUE", 5, 2),
        ("      I=1\n      DO 7 K=J,3\n    7 I=2", 6, 2),
    ];
    for (text, halt, sequence) in cases {
        let text = if text.contains("END") {
            text.to_string()
        } else {
            format!("{text}\n      END")
        };
        let deck = luvinqata::punch(text.as_bytes()).expect("short lines");
        let program = Program::compile(5, &deck).expect("a right deck");
        let (mut store, mut state) = (vec![0; program.cells()], State::fresh());
        let ran = luvinqata::run(program.object(), &mut store, &mut state, 1_000).expect("a right store");
        let at = program.statement_at(&state).expect("a statement");
        assert_eq!((ran.halt.number(), at.sequence), (halt, sequence), "{text}");
    }
}

/// An hour with cards in parts, in this process and in another that is told the cards taken, ends as one run does.
#[test]
fn an_hour_with_cards_in_parts_is_the_run() {
    const ROOM: usize = 40;
    let (mut ended, mut used_in_both) = (0, 0);
    for seed in 0..CASES {
        let mut rng = Rng::new(seed);
        let made = generate::ordinary_deck_at(common::LEVEL, &mut rng);
        let (_, tables) = common::LEVEL.accept(made.k, &made.deck).expect("an ordinary deck");
        let program = Program::read(tables.to_bytes()).expect("a compiled object");
        let cards = generate::cards(&mut rng);
        let run = |allowance: u32| {
            let mut hour = program.start();
            hour.lend(Trays::new(&cards, ROOM));
            hour.run(allowance).expect("a fresh hour")
        };
        let (whole, first) = (run(90), run(rng.below(20) as u32));
        let (taken, mut lines) = (first.trays().cards.taken(), first.trays().lines.bytes().to_vec());
        let used = taken + lines.len();

        let kept = first.state().to_bytes();
        let mut hour = program.resume(first.cells().to_vec(), State::from_bytes(&kept));
        hour.lend(Trays {
            cards: Cards::new(&cards).after(taken),
            lines: Lines::with_room(first.trays().lines.room()),
        });
        let answer = hour
            .run(5)
            .and_then(|answer| answer.resume(65))
            .expect("what a run left");
        let trays = answer.trays();
        lines.extend(trays.lines.bytes());
        if answer.halt() == Halt::Allowance {
            continue;
        }
        assert_eq!(answer.halt(), whole.halt(), "seed {seed}");
        assert_eq!(
            (answer.cells(), answer.state()),
            (whole.cells(), whole.state()),
            "seed {seed}"
        );
        assert_eq!(trays.cards.taken(), whole.trays().cards.taken(), "seed {seed}");
        assert_eq!(lines, whole.trays().lines.bytes(), "seed {seed}");
        ended += 1;
        used_in_both += u32::from(used > 0 && trays.cards.taken() + lines.len() > used);
    }
    assert!(ended > 1_000 && used_in_both > 50, "{ended}, {used_in_both}");
}

/// A run that ran out of cards or of room goes on where more is lent.
#[test]
fn more_cards_and_lines() {
    let text = b"      READ 1,I\n      PRINT 1,I\n    1 FORMAT(I5)\n      END";
    let deck = luvinqata::punch(text).expect("short lines");
    let (_, tables) = common::LEVEL.accept(5, &deck).expect("a right deck");
    let program = Program::read(tables.to_bytes()).expect("a compiled object");
    let mut answer = program.start().run(9).expect("a fresh hour");
    assert_eq!((answer.halt(), answer.steps()), (Halt::RanOut, 1));
    answer.trays_mut().cards = Cards::new(luvinqata::punch(b"   47").expect("a short line"));
    let mut answer = answer.resume(9).expect("what a run left");
    assert_eq!(
        (answer.halt(), answer.steps(), answer.get("I")),
        (Halt::RanOut, 2, Some(47))
    );
    answer.trays_mut().lines = Lines::with_room(1);
    let answer = answer.resume(9).expect("what a run left");
    assert_eq!((answer.halt(), answer.steps()), (Halt::End, 2));
    assert!(answer.trays().lines.iter().eq(["   47"]));
}
