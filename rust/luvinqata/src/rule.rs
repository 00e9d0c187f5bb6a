//! The rules that a call refuses by.

use std::fmt;

/// A rule that a deck, an object, a store or a state can break. Each has 01's refusal number.
///
/// ```
/// use luvinqata::Rule;
/// assert_eq!((Rule::Form.number(), Rule::with_number(11)), (10, Some(Rule::Name)));
/// assert_eq!(Rule::with_number(17), None);
/// ```
#[derive(Clone, Copy, Debug, PartialEq, Eq, PartialOrd, Ord, Hash)]
#[non_exhaustive]
#[repr(u32)]
pub enum Rule {
    /// The digits are 1 to 9.
    Digits = 1,
    /// A deck is 1 to 512 cards of 80 bytes.
    DeckLength = 2,
    /// The characters that a card may hold.
    Character = 3,
    /// Columns 1 to 5.
    NumberColumns = 4,
    /// A continuation has a statement before it, and nine at most follow a first card.
    Continuation = 5,
    /// No statement is empty.
    Empty = 6,
    /// At most 400 statements.
    Statements = 7,
    /// The forms of a statement.
    Form = 10,
    /// A name's length and first letter.
    Name = 11,
    /// A constant has at most k digits as written.
    Constant = 12,
    /// A statement number in a text is 1 to 99999.
    Number = 13,
    /// Parentheses go sixteen deep at most.
    Parentheses = 14,
    /// What a DIMENSION may declare.
    Dimension = 15,
    /// An array's name has its subscripts, and no other has any.
    Element = 16,
    /// The limits of the tables.
    Table = 18,
    /// END stands last.
    End = 20,
    /// A statement number is defined once, and not on DIMENSION or END.
    DefinedTwice = 21,
    /// A statement number that is used is defined.
    Undefined = 22,
    /// Where a DO may end.
    Range = 23,
    /// No jump goes into a DO's range.
    Jump = 24,
    /// A DO's variable is not set in its range.
    Variable = 25,
    /// The output has room.
    Room = 30,
    /// An object's lengths, contents and edition.
    Object = 40,
    /// An object's digits, cells and tables are in their limits.
    Limits = 41,
    /// An object's entries are in range.
    Entry = 42,
    /// An object's instructions are right.
    Instruction = 43,
    /// The code has a table of heights.
    Heights = 44,
    /// The store has the object's cells.
    StoreLength = 50,
    /// The store's cells have at most k digits.
    StoreDigits = 51,
    /// The state fits the code.
    State = 52,
}

impl Rule {
    /// Every rule, by number.
    pub const ALL: [Rule; 30] = [
        Rule::Digits,
        Rule::DeckLength,
        Rule::Character,
        Rule::NumberColumns,
        Rule::Continuation,
        Rule::Empty,
        Rule::Statements,
        Rule::Form,
        Rule::Name,
        Rule::Constant,
        Rule::Number,
        Rule::Parentheses,
        Rule::Dimension,
        Rule::Element,
        Rule::Table,
        Rule::End,
        Rule::DefinedTwice,
        Rule::Undefined,
        Rule::Range,
        Rule::Jump,
        Rule::Variable,
        Rule::Room,
        Rule::Object,
        Rule::Limits,
        Rule::Entry,
        Rule::Instruction,
        Rule::Heights,
        Rule::StoreLength,
        Rule::StoreDigits,
        Rule::State,
    ];

    /// 01's number.
    pub fn number(self) -> u32 {
        self as u32
    }

    /// The rule of a number; None if there is none.
    pub fn with_number(number: u32) -> Option<Rule> {
        Rule::ALL.into_iter().find(|rule| rule.number() == number)
    }

    /// What a refusal by it means, in plain words.
    pub fn words(self) -> &'static str {
        match self {
            Rule::Digits => "the digits are not 1 to 9",
            Rule::DeckLength => "the deck is not 1 to 512 cards of 80 bytes",
            Rule::Character => "a character that a card may not hold",
            Rule::NumberColumns => {
                "columns 1 to 5 are neither blank nor a statement number, or are not blank on a continuation"
            }
            Rule::Continuation => "a tenth continuation, or one with nothing before it",
            Rule::Empty => "an empty statement",
            Rule::Statements => "over 400 statements",
            Rule::Form => "a statement of no known form",
            Rule::Name => "a name over six characters or not starting with I to N",
            Rule::Constant => "a constant over k digits as written",
            Rule::Number => "a statement number in the text that is not 1 to 99999",
            Rule::Parentheses => "parentheses over sixteen deep",
            Rule::Dimension => "a dimension 0, or an array's name already seen or ending in F",
            Rule::Element => "an element of an undeclared array, a wrong count of subscripts, or an array's name alone",
            Rule::Table => "this statement takes a table over its limit",
            Rule::End => "END is missing or not last, or there is no statement at all",
            Rule::DefinedTwice => "a statement number defined twice, or on DIMENSION or END",
            Rule::Undefined => "a statement number used and never defined",
            Rule::Range => {
                "a DO's last statement does not come after it or may not end it, or ranges cross or go over 8 deep"
            }
            Rule::Jump => "a jump into a DO's range from outside",
            Rule::Variable => "a DO's variable set, or taken by another DO, in its range",
            Rule::Room => "the output is too short",
            Rule::Object => {
                "the object's or a body's length, the contents or the edition are wrong, or there is no code"
            }
            Rule::Limits => "the object's digits are not 1 to 9, or its cells or a table are over their limit",
            Rule::Entry => "an entry of a body is out of range",
            Rule::Instruction => "an unknown operation, or an operand or an exit out of range",
            Rule::Heights => {
                "no table of heights: the stack runs empty, goes over 40 or differs between paths, or the code runs out"
            }
            Rule::StoreLength => "the store is shorter than the object's cells",
            Rule::StoreDigits => "a cell of the store over k digits",
            Rule::State => "the state's index, height, stack numbers or drop mark do not fit the code",
        }
    }
}

impl fmt::Display for Rule {
    /// The number, as the program prints it.
    fn fmt(&self, f: &mut fmt::Formatter<'_>) -> fmt::Result {
        self.number().fmt(f)
    }
}
