//! An object that passed the check, with what its bytes say: digits, names and statements.

use crate::names::{word, Name, Names};
use crate::store::names_of;
use crate::{compile_to_vec, Refusal, State};

/// Where the first byte and the length of the statements' body stand in an object.
const STATEMENTS: [usize; 2] = [80, 84];
/// The bytes of one statement.
const ENTRY: usize = 12;

/// A statement of the deck that does something, or END.
#[derive(Clone, Copy, Debug, PartialEq, Eq)]
#[non_exhaustive]
pub struct Statement {
    /// Its sequence number: statements are counted from 1 in card order.
    pub sequence: u32,
    /// The statement number punched in columns 1 to 5; 0 if none is.
    pub number: u32,
    /// The first of its instructions.
    pub address: u32,
}

/// A compiled deck, or an object that passed the check.
///
/// ```
/// let deck = luvinqata::punch(b"      I=47\n   10 J=I*I*I\n      STOP\n      END\n").unwrap();
/// let program = luvinqata::Program::compile(5, &deck).unwrap();
/// assert_eq!((program.digits(), program.names()[1].text.as_str()), (5, "J"));
/// let second = program.statements()[1];
/// assert_eq!((second.sequence, second.number, second.address), (2, 10, 2));
/// assert_eq!(luvinqata::Program::read(program.object()), Ok(program));
/// ```
#[derive(Clone, Debug, PartialEq, Eq)]
pub struct Program {
    pub(crate) object: Vec<u8>,
    pub(crate) names: Names,
    statements: Vec<Statement>,
}

impl Program {
    /// Compiles a deck for numbers of `k` digits: refuses by 1 to 25.
    pub fn compile(k: u32, deck: &[u8]) -> Result<Program, Refusal> {
        Program::read(compile_to_vec(k, deck)?)
    }

    /// Takes an object, from anywhere: refuses by 40 to 44.
    ///
    /// ```
    /// assert_eq!(luvinqata::Program::read(*b"no object").unwrap_err().number(), 40);
    /// ```
    pub fn read(object: impl Into<Vec<u8>>) -> Result<Program, Refusal> {
        let object = object.into();
        let names = names_of(&object)?;
        let [first, length] = STATEMENTS.map(|at| word(&object, at) as usize);
        let statement = |entry: &[u8]| Statement {
            sequence: word(entry, 0),
            number: word(entry, 4),
            address: word(entry, 8),
        };
        let statements = object[first..][..length].chunks_exact(ENTRY).map(statement).collect();
        Ok(Program {
            object,
            names,
            statements,
        })
    }

    /// The object's bytes.
    pub fn object(&self) -> &[u8] {
        &self.object
    }

    /// The digits of its numbers, 1 to 9.
    pub fn digits(&self) -> u32 {
        word(&self.object, 4)
    }

    /// How many cells its store has.
    pub fn cells(&self) -> usize {
        word(&self.object, 8) as usize
    }

    /// Its names, in the order of their cells.
    pub fn names(&self) -> &[Name] {
        &self.names.0
    }

    /// Its statements but for DIMENSION, in card order.
    pub fn statements(&self) -> &[Statement] {
        &self.statements
    }

    /// The statement that a state stands at: the one to be done next, and after a halt other than 2 the one that halted.
    ///
    /// ```
    /// # let deck = luvinqata::punch(b"      I=47\n   10 J=I/0\n      STOP\n      END\n").unwrap();
    /// let program = luvinqata::Program::compile(5, &deck).unwrap();
    /// let (mut store, mut state) = ([0; 2], luvinqata::State::fresh());
    /// let ran = luvinqata::run(program.object(), &mut store, &mut state, 1_000).unwrap();
    /// assert_eq!(ran.words(), "division by zero");
    /// assert_eq!(program.statement_at(&state).map(|statement| statement.sequence), Some(2));
    /// ```
    pub fn statement_at(&self, state: &State) -> Option<Statement> {
        let begun = |statement: &&Statement| statement.address <= state.index;
        self.statements.iter().rev().find(begun).copied()
    }
}
