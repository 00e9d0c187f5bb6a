//! Compiling: a deck's bytes to its accepted statements and its object's bytes.

use crate::cards::{read_cards, Punched, Sequence, StatementNumber};
use crate::format;
use crate::level::Level;
use crate::object::Tables;
use crate::reader::{read, Form};
use crate::refusal::Refusal;
use crate::translate::Translator;
use crate::whole::judge_whole;

#[derive(Clone, Debug, PartialEq, Eq)]
pub struct Statement {
    pub sequence: Sequence,
    pub number: Option<StatementNumber>,
    pub form: Form,
}

/// The statements of a deck that breaks none of 1 to 25.
#[derive(Clone, Debug, PartialEq, Eq)]
pub struct Deck {
    k: u32,
    statements: Vec<Statement>,
}

impl Deck {
    pub fn k(&self) -> u32 {
        self.k
    }

    pub fn statements(&self) -> &[Statement] {
        &self.statements
    }

    /// "a compiled deck with p levels of parentheses"
    pub fn levels(&self) -> usize {
        self.statements.iter().map(|s| s.form.levels()).max().unwrap_or(0)
    }
}

/// Compiling in the base.
pub fn compile(k: u32, deck: &[u8], out: &mut [u8]) -> Result<usize, Refusal> {
    Level::Base.compile(k, deck, out)
}

/// Accepting in the base.
pub fn accept(k: u32, deck: &[u8]) -> Result<(Deck, Tables), Refusal> {
    Level::Base.accept(k, deck)
}

impl Level {
    /// Writes the deck's object to the front of `out` and returns its length. "Output bytes past a
    /// compiled object stay."
    pub fn compile(self, k: u32, deck: &[u8], out: &mut [u8]) -> Result<usize, Refusal> {
        let (_, tables) = self.accept(k, deck)?;
        let object = tables.to_bytes();
        // "30: output too short", after everything else.
        let Some(part) = out.get_mut(..object.len()) else {
            return Err(Refusal::whole(30));
        };
        part.copy_from_slice(&object);
        Ok(object.len())
    }

    /// The deck's statements and its object's tables, or the first refusal in the order "1, 2; card
    /// by card 3-5; 7; statement by statement 6, 10-18; then 20-25 by number".
    pub fn accept(self, k: u32, deck: &[u8]) -> Result<(Deck, Tables), Refusal> {
        let mut translator = Translator::new(self.edition(), k);
        let mut statements = Vec::new();
        for punched in read_cards(self, k, deck)? {
            let place = punched.sequence.0;
            let statement = take(self, k, punched, &mut translator).map_err(|number| Refusal::at(number, place))?;
            statements.push(statement);
        }
        judge_whole(&statements)?;
        Ok((Deck { k, statements }, translator.finish()))
    }
}

/// What a statement is, or 10-14, or 17: "for a FORMAT not of the forms or unnumbered".
fn form(level: Level, k: u32, punched: &Punched) -> Result<Form, u32> {
    match read(level, k, &punched.text) {
        // "its text begins FORMAT and is of no other form"
        Err(10) if level >= Level::Cards && punched.text.starts_with(b"FORMAT") => {
            let list = punched.number.and_then(|_| format::read(&punched.columns));
            list.map(Form::Format).ok_or(17)
        }
        read => read,
    }
}

/// One statement: 6, then 10-14, then 15-18.
fn take(level: Level, k: u32, punched: Punched, translator: &mut Translator) -> Result<Statement, u32> {
    if punched.text.is_empty() {
        return Err(6);
    }
    let form = form(level, k, &punched)?;
    let statement = Statement {
        sequence: punched.sequence,
        number: punched.number,
        form,
    };
    translator.take(&statement)?;
    Ok(statement)
}
