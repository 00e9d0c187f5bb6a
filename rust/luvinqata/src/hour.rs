//! An hour: one run of a program, from its values to its answer.

use std::fmt;

use crate::{run_with, Halt, Program, Ran, Refusal, State, Statement, Trays};

/// A run that has not begun, or that goes on: its values, where it stands, and the cards and lines that it is lent.
#[derive(Clone, Debug)]
#[must_use = "nothing was run yet"]
pub struct Hour<'p> {
    program: &'p Program,
    cells: Vec<i64>,
    state: State,
    trays: Trays<'p>,
}

/// Why a value cannot be given.
#[derive(Clone, Debug, PartialEq, Eq)]
#[non_exhaustive]
pub enum NotSet {
    /// The deck has no such name or element.
    NoSuchValue {
        /// What was asked for.
        name: String,
    },
    /// The value has more digits than the program's numbers.
    TooLong {
        /// Whose value it was to be.
        name: String,
        /// The value.
        value: i64,
        /// The program's digits.
        digits: u32,
    },
}

impl fmt::Display for NotSet {
    fn fmt(&self, f: &mut fmt::Formatter<'_>) -> fmt::Result {
        match self {
            NotSet::NoSuchValue { name } => write!(f, "the deck has no value {name}"),
            NotSet::TooLong { name, value, digits } => write!(f, "{name} is {value}, over {digits} digits"),
        }
    }
}

impl std::error::Error for NotSet {}

impl Program {
    /// An hour with every value 0, from the beginning, that is lent no card and no line.
    ///
    /// ```
    /// # fn hour() -> Result<(), Box<dyn std::error::Error>> {
    /// # let deck = luvinqata::punch(b"      KUBE=KNOTS*KNOTS*KNOTS\n      END\n")?;
    /// let program = luvinqata::Program::compile(5, &deck)?;
    /// let mut hour = program.start();
    /// hour.set("KNOTS", 47)?;
    /// let answer = hour.run(1_000_000)?;
    /// assert_eq!((answer.get("KUBE"), answer.lost()), (Some(3823), Some(1)));
    /// # Ok(())
    /// # }
    /// # hour().unwrap();
    /// ```
    pub fn start(&self) -> Hour<'_> {
        self.resume(vec![0; self.cells()], State::fresh())
    }

    /// An hour that goes on from the cells and the state that an [`Answer`] left, here or in another process. They belong
    /// together and to this program; the run refuses what it can tell is wrong, by 50 to 52.
    ///
    /// ```
    /// # let deck = luvinqata::punch(b"      I=I+1\n      J=I*2\n      END\n").unwrap();
    /// let program = luvinqata::Program::compile(5, &deck).unwrap();
    /// let answer = program.start().run(3).unwrap();
    /// let (cells, state) = (answer.cells().to_vec(), answer.state().to_bytes());
    /// let answer = program.resume(cells, luvinqata::State::from_bytes(&state)).run(1_000).unwrap();
    /// assert_eq!((answer.halt().is_end(), answer.get("J")), (true, Some(2)));
    /// ```
    pub fn resume(&self, cells: Vec<i64>, state: State) -> Hour<'_> {
        Hour {
            program: self,
            cells,
            state,
            trays: Trays::empty(),
        }
    }
}

impl<'p> Hour<'p> {
    /// Gives a name, `I`, or an element, `L(2)` or `L(2,1)`, its value.
    ///
    /// ```
    /// # let deck = luvinqata::punch(b"      I=I+1\n      END\n").unwrap();
    /// # let program = luvinqata::Program::compile(5, &deck).unwrap();
    /// let mut hour = program.start();
    /// assert_eq!(hour.set("KNOT", 47).unwrap_err().to_string(), "the deck has no value KNOT");
    /// assert_eq!(hour.set("I", -100_000).unwrap_err().to_string(), "I is -100000, over 5 digits");
    /// assert_eq!(hour.set("I", -99_999), Ok(()));
    /// ```
    pub fn set(&mut self, name: &str, value: i64) -> Result<(), NotSet> {
        let cell = self.program.names.cell(name).and_then(|cell| self.cells.get_mut(cell));
        let name = name.to_string();
        let digits = self.program.digits();
        match cell {
            None => Err(NotSet::NoSuchValue { name }),
            Some(_) if value.unsigned_abs() >= 10u64.pow(digits) => Err(NotSet::TooLong { name, value, digits }),
            Some(cell) => {
                *cell = value;
                Ok(())
            }
        }
    }

    /// Lends cards to READ and room for the lines to PRINT. Whoever goes on with the answer is lent what the run left.
    ///
    /// ```
    /// // READ 1,I and PRINT 1,I twice; 1 FORMAT(I5).
    /// # let words = [
    /// #     2, 5, 1, 10, 1, 136, 0, 2, 136, 0, 3, 136, 0, 4, 136, 0, 5, 136, 20, 6, 156, 0, 7, 156, 0, 8, 156, 8, 9, 164, 8, 10, 172, 12,
    /// #     16 << 24, 17 << 24, 16 << 24, 17 << 24, 1, 1 << 24 | 5, 5 << 24, 0, 1, 0, 0, 1u32,
    /// # ];
    /// # let object: Vec<u8> = words.into_iter().flat_map(u32::to_le_bytes).collect();
    /// let program = luvinqata::Program::read(object).unwrap();
    /// let cards = luvinqata::punch(b"   47\n  -12\n").unwrap();
    /// let mut hour = program.start();
    /// hour.lend(luvinqata::Trays::new(&cards, 10));
    /// let answer = hour.run(2).unwrap().resume(9).unwrap();
    /// assert!(answer.halt().is_end());
    /// assert_eq!(answer.trays().lines.iter().collect::<Vec<_>>(), ["   47", "  -12"]);
    /// ```
    pub fn lend(&mut self, trays: Trays<'p>) {
        self.trays = trays;
    }

    /// Runs for at most `allowance` steps. Of an hour that was started it is never refused; of one that goes on from
    /// cells or a state that do not fit the program, by 50 to 52.
    pub fn run(mut self, allowance: u32) -> Result<Answer<'p>, Refusal> {
        let Hour {
            program,
            cells,
            state,
            trays,
        } = &mut self;
        let ran = run_with(&program.object, cells, state, trays, allowance)?;
        Ok(Answer { hour: self, ran })
    }
}

/// How an hour ended, and its values. These can be had only together with the halt and the first loss.
///
/// ```compile_fail
/// #![deny(unused_must_use)]
/// # let deck = luvinqata::punch(b"      I=I+1\n      END\n").unwrap();
/// # let program = luvinqata::Program::compile(5, &deck).unwrap();
/// program.start().run(1_000).unwrap();
/// ```
#[derive(Clone, Debug)]
#[must_use = "the run may have stopped early or lost digits"]
pub struct Answer<'p> {
    hour: Hour<'p>,
    ran: Ran,
}

impl<'p> Answer<'p> {
    /// Why the run stopped. Only if this is an end, the values are the deck's answer.
    pub fn halt(&self) -> Halt {
        self.ran.halt
    }

    /// The instructions done in this run, the one that halted among them.
    pub fn steps(&self) -> u32 {
        self.ran.steps
    }

    /// The sequence number of the first statement that lost digits; None: no digit was lost.
    pub fn lost(&self) -> Option<u32> {
        Some(self.ran.sequence).filter(|sequence| *sequence > 0)
    }

    /// The statement that the run stands at: the one that halted, or after halt 2 the next.
    ///
    /// ```
    /// # let deck = luvinqata::punch(b"      I=1\n      J=I/K\n      END\n").unwrap();
    /// # let program = luvinqata::Program::compile(5, &deck).unwrap();
    /// let answer = program.start().run(1_000).unwrap();
    /// assert_eq!(answer.halt(), luvinqata::Halt::DivisionByZero);
    /// assert_eq!(answer.stands_at().map(|statement| statement.sequence), Some(2));
    /// ```
    pub fn stands_at(&self) -> Option<Statement> {
        self.hour.program.statement_at(&self.hour.state)
    }

    /// The value of a name or an element; None if the deck has no such name.
    pub fn get(&self, name: &str) -> Option<i64> {
        self.hour.program.names.cell(name).map(|cell| self.hour.cells[cell])
    }

    /// Every named value and what it is called, in the order of their cells.
    pub fn values(&self) -> impl Iterator<Item = (String, i64)> + '_ {
        let values = self.hour.program.names.values();
        values.map(|(name, cell)| (name, self.hour.cells[cell]))
    }

    /// Goes on for at most `allowance` steps: both runs together are one run of both allowances.
    pub fn resume(self, allowance: u32) -> Result<Answer<'p>, Refusal> {
        self.hour.run(allowance)
    }

    /// The cards and the lines as the run left them.
    pub fn trays(&self) -> &Trays<'p> {
        &self.hour.trays
    }

    /// The same to be changed: after halt 9, with more cards or an empty tray of lines, the run goes on.
    pub fn trays_mut(&mut self) -> &mut Trays<'p> {
        &mut self.hour.trays
    }

    /// The cells, the DOs' hidden ones among them.
    pub fn cells(&self) -> &[i64] {
        &self.hour.cells
    }

    /// Where the run stands.
    pub fn state(&self) -> &State {
        &self.hour.state
    }
}
