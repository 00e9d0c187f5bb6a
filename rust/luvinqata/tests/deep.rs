//! The stacks that GUIDE asks for are enough: 1 MiB for statements as long as cards allow, all parentheses, and 64 KiB for all that is done with an object.

use std::thread;

use luvinqata::{bench_with, check, compile, map, punch, run_with, Halt, Refusal, Rule, State, Trays, LONGEST_OBJECT};

const COMPILING: usize = 1 << 20;
const RUNNING: usize = 64 << 10;
/// The text columns of a first card and nine continuations.
const LONGEST: usize = 660;

/// The text on ten cards, then END.
fn deck(text: &str) -> Vec<u8> {
    assert!(text.len() <= LONGEST);
    let mut deck = String::new();
    for (index, part) in text.as_bytes().chunks(66).enumerate() {
        let sixth = if index == 0 { ' ' } else { '1' };
        let columns: String = part.iter().map(|byte| char::from(*byte)).collect();
        deck += &format!("     {sixth}{columns:74}");
    }
    deck += &format!("{:80}", "      END");
    deck.into_bytes()
}

fn with_stack<T: Send + 'static>(stack: usize, call: impl FnOnce() -> T + Send + 'static) -> T {
    let thread = thread::Builder::new().stack_size(stack).spawn(call).expect("a thread");
    thread.join().expect("no overflow")
}

/// The object's length, or the rule and the place.
fn compiled(text: &str) -> Result<usize, (Rule, u32)> {
    let deck = deck(text);
    let answer = with_stack(COMPILING, move || compile(9, &deck, &mut [0; LONGEST_OBJECT]));
    answer.map_err(|refusal| (refusal.rule, refusal.place))
}

#[test]
fn the_deepest_statements() {
    let refused = |rule| Err((rule, 1));
    let pairs = |depth: usize, inner: &str| format!("{}{inner}{}", "(".repeat(depth), ")".repeat(depth));
    assert_eq!(compiled(&format!("I={}", "(".repeat(LONGEST - 2))), refused(Rule::Form));
    assert_eq!(
        compiled(&format!("IF({}", "(".repeat(LONGEST - 3))),
        refused(Rule::Form)
    );
    assert_eq!(compiled(&"(".repeat(LONGEST)), refused(Rule::Form));
    assert_eq!(compiled(&format!("I={}", pairs(328, "1"))), refused(Rule::Parentheses));
    assert_eq!(compiled(&format!("I={}", pairs(328, "-J"))), refused(Rule::Parentheses));
    assert_eq!(
        compiled(&format!("IF({})1,1,1", pairs(325, "J"))),
        refused(Rule::Parentheses)
    );
    assert_eq!(
        compiled(&format!("I={}1{}", "-J*(".repeat(131), ")".repeat(131))),
        refused(Rule::Parentheses)
    );
    assert!(compiled(&format!("I={}", pairs(16, &format!("1{}", "+1".repeat(312))))).is_ok());
    assert!(compiled(&format!("I={}1{}", "J-K*(".repeat(16), ")".repeat(16))).is_ok());
}

/// Check, map, run and bench run keep their tables on the stack too, of one size for every object.
#[test]
fn all_that_is_done_with_an_object() {
    let text = b"      READ 1,J\n      I=((J+1)*2)\n      PRINT 1,I\n    1 FORMAT(I5)\n      END";
    let deck = punch(text).expect("short lines");
    let (_, tables) = independent::Level::Cards.accept(9, &deck).expect("a right deck");
    let object = tables.to_bytes();
    let ran = with_stack(RUNNING, move || {
        let [mut run_trays, mut bench_trays] = [(); 2].map(|()| Trays::new(vec![b' '; 80], 1));
        let (mut store, mut state) = ([0; 2], State::fresh());
        check(&object).and_then(|()| map(&object, &mut [0; 40]))?;
        let ran = run_with(&object, &mut store, &mut state, &mut run_trays, 99)?;
        let benched = bench_with(&object, &mut store, &mut State::fresh(), &mut bench_trays, 99)?;
        Ok::<_, Refusal>((ran, benched, store))
    });
    let (ran, benched, store) = ran.expect("a right object");
    assert_eq!((ran, ran.halt, store), (benched, Halt::End, [0, 2]));
}
