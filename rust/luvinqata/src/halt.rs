//! How a run comes to its end.

use std::fmt;

/// Why a run stopped. Each has 01's number, the last two 2026-01's.
///
/// ```
/// use luvinqata::Halt;
/// assert_eq!((Halt::Stop.number(), Halt::with_number(3)), (0, Some(Halt::DivisionByZero)));
/// assert!(Halt::End.is_end() && !Halt::Allowance.is_end());
/// ```
#[derive(Clone, Copy, Debug, PartialEq, Eq, PartialOrd, Ord, Hash)]
#[non_exhaustive]
#[repr(u32)]
pub enum Halt {
    /// STOP.
    Stop = 0,
    /// END.
    End = 1,
    /// The steps allowed are used up: the run can be gone on with.
    Allowance = 2,
    /// Division by zero.
    DivisionByZero = 3,
    /// A subscript outside its dimension.
    Subscript = 4,
    /// A computed GO TO without such an exit.
    Exit = 5,
    /// A DO's parameter that is not above 0.
    Parameter = 6,
    /// The stack empty or over, in a bench run of an object that does not pass the check.
    Stack = 7,
    /// A wrong instruction, in such a run.
    Instruction = 8,
    /// No card is left for a READ, or no room for a PRINT's line: with more lent the run can be gone on with.
    RanOut = 9,
    /// A field of a READ that is no number of at most k digits, or one that passes the last column.
    Field = 10,
}

impl Halt {
    /// Every halt, by number.
    pub const ALL: [Halt; 11] = [
        Halt::Stop,
        Halt::End,
        Halt::Allowance,
        Halt::DivisionByZero,
        Halt::Subscript,
        Halt::Exit,
        Halt::Parameter,
        Halt::Stack,
        Halt::Instruction,
        Halt::RanOut,
        Halt::Field,
    ];

    /// 01's number.
    pub fn number(self) -> u32 {
        self as u32
    }

    /// The halt of a number; None if there is none.
    pub fn with_number(number: u32) -> Option<Halt> {
        Halt::ALL.into_iter().find(|halt| halt.number() == number)
    }

    /// Whether the deck came to STOP or END. After any other halt its values are not its answer.
    pub fn is_end(self) -> bool {
        matches!(self, Halt::Stop | Halt::End)
    }

    /// What it means, in plain words.
    pub fn words(self) -> &'static str {
        match self {
            Halt::Stop => "STOP",
            Halt::End => "END",
            Halt::Allowance => "the steps allowed are used up",
            Halt::DivisionByZero => "division by zero",
            Halt::Subscript => "a subscript is not from 1 to its dimension",
            Halt::Exit => "a computed GO TO has no such exit",
            Halt::Parameter => "a DO's parameter is not above 0",
            Halt::Stack => "the stack runs empty or over",
            Halt::Instruction => "a wrong instruction",
            Halt::RanOut => "no card is left to READ, or no room for a line to PRINT",
            Halt::Field => "a field is no number of at most k digits, or passes column 80 of a card or 132 of a line",
        }
    }
}

impl fmt::Display for Halt {
    /// The number, as the program prints it.
    fn fmt(&self, f: &mut fmt::Formatter<'_>) -> fmt::Result {
        self.number().fmt(f)
    }
}

/// How a run came to its end.
#[derive(Clone, Copy, Debug, PartialEq, Eq)]
#[must_use = "a run may have stopped early or lost digits"]
#[non_exhaustive]
pub struct Ran {
    /// Why it stopped.
    pub halt: Halt,
    /// The instructions done, the one that halted among them.
    pub steps: u32,
    /// The sequence number of the first statement that lost digits, or 0.
    pub sequence: u32,
    /// The cards that this run took.
    pub cards: usize,
    /// The lines that it wrote.
    pub lines: usize,
}

impl Ran {
    /// What the halt means, in plain words.
    ///
    /// ```
    /// # let deck = luvinqata::punch(b"      I=1/0\n      END").unwrap();
    /// # let object = luvinqata::compile_to_vec(5, &deck).unwrap();
    /// let ran = luvinqata::run(&object, &mut [0], &mut luvinqata::State::fresh(), 100).unwrap();
    /// assert_eq!(ran.words(), "division by zero");
    /// ```
    pub fn words(&self) -> &'static str {
        self.halt.words()
    }
}
