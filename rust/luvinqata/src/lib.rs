//! Compiles decks of IBM 1401 Fortran, and checks and runs the objects that they are compiled to. The work is done by
//! proved code, linked from an archive; this crate only makes its calls safe. Every function takes any bytes, any numbers
//! and any state, and a refusal changes nothing that was lent.
//!
//! An hour is three lines of a [`Program`]. The gale: 47 knots cubed, in five digits.
//!
//! ```
//! # fn gale() -> Result<(), Box<dyn std::error::Error>> {
//! let deck = luvinqata::punch(b"      KUBE=KNOTS*KNOTS*KNOTS\n      END\n")?;
//! let program = luvinqata::Program::compile(5, &deck)?;
//!
//! let mut hour = program.start();
//! hour.set("KNOTS", 47)?;
//! let answer = hour.run(1_000_000)?;
//!
//! assert_eq!(answer.get("KUBE"), Some(3823));
//! assert_eq!(answer.lost(), Some(1), "the first statement lost digits");
//! # Ok(())
//! # }
//! # gale().unwrap();
//! ```
//!
//! The plain calls, [`compile`], [`check`], [`run`], [`bench()`] and [`map`], take bytes, a store and a state of one's own. Objects that read
//! cards and print lines are lent [`Trays`]. A deck that is refused is told by [`Refusal::explain`].

#![deny(missing_docs, unsafe_code)]

mod deck;
mod explain;
mod halt;
mod hour;
mod names;
mod program;
#[allow(unsafe_code)]
mod raw;
mod refusal;
mod rule;
mod state;
mod store;
mod trays;

pub use deck::{punch, statement, Card, LongLine, CARD};
pub use explain::{Columns, Explanation};
pub use halt::{Halt, Ran};
pub use hour::{Answer, Hour, NotSet};
pub use names::Name;
pub use program::{Program, Statement};
pub use refusal::Refusal;
pub use rule::Rule;
pub use state::State;
pub use store::Store;
pub use trays::{Cards, Lines, Trays, LINE};

/// The bytes of the longest object there can be: no deck needs more room.
pub const LONGEST_OBJECT: usize = 68_056;

/// The most numbers on a stack.
pub const STACK: usize = 40;

/// Compiles a deck of 80-byte cards for numbers of `k` digits: writes its object to the front of `output` and returns
/// its length. Bytes past the object stay. Refuses by 1 to 25, and by 30 an output that is too short;
/// [`LONGEST_OBJECT`] bytes are always enough.
///
/// ```
/// let deck = luvinqata::punch(b"      I=47\n      J=I*I*I\n      STOP\n      END\n").unwrap();
/// let mut output = [0; 300];
/// assert_eq!(luvinqata::compile(5, &deck, &mut output), Ok(232));
/// assert_eq!(luvinqata::compile(5, &deck, &mut output[..231]).unwrap_err().number(), 30);
/// assert_eq!(luvinqata::compile(0, &deck, &mut output).unwrap_err().number(), 1);
/// ```
pub fn compile(k: u32, deck: &[u8], output: &mut [u8]) -> Result<usize, Refusal> {
    let answer = raw::compile(k, deck, output);
    refusal::pass(answer.number, answer.place, answer.kind)?;
    Ok(answer.length as usize)
}

/// The same with the room it needs: returns the object.
///
/// ```
/// let deck = luvinqata::punch(b"      END").unwrap();
/// let object = luvinqata::compile_to_vec(5, &deck).unwrap();
/// assert_eq!(luvinqata::check(&object), Ok(()));
/// assert_eq!(luvinqata::compile_to_vec(5, b"").unwrap_err().number(), 2);
/// ```
pub fn compile_to_vec(k: u32, deck: &[u8]) -> Result<Vec<u8>, Refusal> {
    let mut object = vec![0; LONGEST_OBJECT];
    let length = compile(k, deck, &mut object)?;
    object.truncate(length);
    Ok(object)
}

/// Checks an object: refuses by 40 to 44.
///
/// ```
/// let refusal = luvinqata::check(b"no object").unwrap_err();
/// assert_eq!((refusal.number(), refusal.place, refusal.kind), (40, 0, 0));
/// ```
pub fn check(object: &[u8]) -> Result<(), Refusal> {
    let answer = raw::check(object);
    refusal::pass(answer.number, answer.place, answer.kind)
}

/// Checks an object and runs it from a state for at most `allowance` steps: refuses by 40 to 44 and 50 to 52. Cells of
/// the store past the object's own are neither judged nor changed. No card and no room for a line is lent; [`run_with`]
/// lends them.
///
/// A run that stopped by halt 2 can be gone on with: the two together are one run of both allowances.
///
/// ```
/// # let deck = luvinqata::punch(b"      I=7\n      STOP\n      END").unwrap();
/// let object = luvinqata::compile_to_vec(5, &deck).unwrap();
/// let (mut store, mut state) = ([0], luvinqata::State::fresh());
/// let ran = luvinqata::run(&object, &mut store, &mut state, 1).unwrap();
/// assert_eq!((ran.halt, state.height, state.places[0], store), (luvinqata::Halt::Allowance, 1, 7, [0]));
/// let ran = luvinqata::run(&object, &mut store, &mut state, 9).unwrap();
/// assert_eq!((ran.halt, ran.steps, store), (luvinqata::Halt::Stop, 2, [7]));
/// ```
pub fn run(object: &[u8], store: &mut [i64], state: &mut State, allowance: u32) -> Result<Ran, Refusal> {
    run_with(object, store, state, &mut Trays::empty(), allowance)
}

/// The same with cards to READ and room for the lines that it PRINTs. The trays remember how far it came, so that the run
/// that goes on, after halt 2 or with more in them after halt 9, is lent the rest.
///
/// ```
/// // READ 1,I and PRINT 1,I twice; 1 FORMAT(I5).
/// # let words = [
/// #     2, 5, 1, 10, 1, 136, 0, 2, 136, 0, 3, 136, 0, 4, 136, 0, 5, 136, 20, 6, 156, 0, 7, 156, 0, 8, 156, 8, 9, 164, 8, 10, 172, 12,
/// #     16 << 24, 17 << 24, 16 << 24, 17 << 24, 1, 1 << 24 | 5, 5 << 24, 0, 1, 0, 0, 1u32,
/// # ];
/// # let object: Vec<u8> = words.into_iter().flat_map(u32::to_le_bytes).collect();
/// let cards = luvinqata::punch(b"   47\n  -12\n").unwrap();
/// let mut trays = luvinqata::Trays::new(cards, 10);
/// let (mut store, mut state) = ([0], luvinqata::State::fresh());
/// for (allowance, cards, lines) in [(2, 1, 1), (9, 1, 1)] {
///     let ran = luvinqata::run_with(&object, &mut store, &mut state, &mut trays, allowance).unwrap();
///     assert_eq!((ran.cards, ran.lines), (cards, lines));
/// }
/// assert_eq!(trays.lines.iter().collect::<Vec<_>>(), ["   47", "  -12"]);
/// assert_eq!((trays.cards.taken(), trays.lines.room()), (2, 8));
/// ```
pub fn run_with(
    object: &[u8],
    store: &mut [i64],
    state: &mut State,
    trays: &mut Trays,
    allowance: u32,
) -> Result<Ran, Refusal> {
    trays.lend(|cards, lines| ran(raw::run(object, store, state, cards, lines, allowance)))
}

/// Runs an object that need not pass the check, from a fresh state: refuses only by 40, 41, 50 and 51, and tests each
/// instruction when it comes to it (halts 7 and 8). `state` is not read; it takes the state after the run.
///
/// ```
/// // No cell, no constant; the code is ADD, with nothing on the stack.
/// let words = [
///     1, 5, 0, 7, 1, 100, 0, 2, 100, 0, 3, 100, 0, 4, 100, 0, 5, 100, 4, 6, 104, 0, 7, 104, 0, 6u32 << 24,
/// ];
/// let object: Vec<u8> = words.into_iter().flat_map(u32::to_le_bytes).collect();
/// let mut state = luvinqata::State::fresh();
/// assert_eq!(luvinqata::check(&object).unwrap_err().number(), 44);
/// assert_eq!(luvinqata::bench(&object, &mut [], &mut state, 100).unwrap().halt, luvinqata::Halt::Stack);
/// ```
pub fn bench(object: &[u8], store: &mut [i64], state: &mut State, allowance: u32) -> Result<Ran, Refusal> {
    bench_with(object, store, state, &mut Trays::empty(), allowance)
}

/// The same with cards and room for lines, as [`run_with`] is lent them.
pub fn bench_with(
    object: &[u8],
    store: &mut [i64],
    state: &mut State,
    trays: &mut Trays,
    allowance: u32,
) -> Result<Ran, Refusal> {
    trays.lend(|cards, lines| ran(raw::bench(object, store, state, cards, lines, allowance)))
}

/// Checks an object and writes its names to the front of `table`, twenty bytes each: eight bytes of name, then first
/// cell, rows and columns as words. Returns the bytes written; refuses by 40 to 44, and by 30 a table that is too short.
///
/// ```
/// # let deck = luvinqata::punch(b"      I=7\n      END").unwrap();
/// let object = luvinqata::compile_to_vec(5, &deck).unwrap();
/// let mut table = [0; 2_000];
/// let length = luvinqata::map(&object, &mut table).unwrap();
/// assert_eq!(&table[..length], b"I       \0\0\0\0\0\0\0\0\0\0\0\0");
/// assert_eq!(luvinqata::map(&object, &mut table[..19]).unwrap_err().number(), 30);
/// ```
pub fn map(object: &[u8], table: &mut [u8]) -> Result<usize, Refusal> {
    let answer = raw::map(object, table);
    refusal::pass(answer.number, answer.place, answer.kind)?;
    Ok(answer.length as usize)
}

fn ran(answer: raw::Ran) -> Result<Ran, Refusal> {
    refusal::pass(answer.number, answer.place, answer.kind)?;
    Ok(Ran {
        halt: Halt::with_number(answer.halt).expect("the proved calls halt by the book's numbers only"),
        steps: answer.steps,
        sequence: answer.sequence,
        cards: answer.cards,
        lines: answer.lines,
    })
}
