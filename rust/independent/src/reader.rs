//! Statements (01 "Statements"): a text read as the tree of one form, refusals 10 to 14.
//!
//! The forms are read with names of any length and first letter, constants and numbers of any
//! length, parentheses of any depth; the lowest of 11-14 met on the way is kept beside the tree.

use crate::cards::StatementNumber;
use crate::level::Level;
use crate::limits::{LARGEST_NUMBER, PARENTHESES};
pub use crate::tree::*;

/// A tree, and the lowest of 11-14 that its text breaks.
#[derive(Clone, Debug, PartialEq, Eq)]
pub struct Reading {
    pub form: Form,
    pub fault: Option<u32>,
}

/// The statement's tree, or 10 to 14. A FORMAT is read from its columns, not from its text: here it is 10.
pub fn read(level: Level, k: u32, text: &[u8]) -> Result<Form, u32> {
    match readings(level, k, text).pop() {
        None => Err(10),
        Some(Reading {
            fault: Some(number), ..
        }) => Err(number),
        Some(Reading { form, fault: None }) => Ok(form),
    }
}

/// Every form the whole text is of. There is never more than one (tested).
pub fn readings(level: Level, k: u32, text: &[u8]) -> Vec<Reading> {
    let forms: [FormReader; 9] = [
        Reader::assignment,
        Reader::go_to,
        Reader::computed_go_to,
        Reader::arithmetic_if,
        Reader::do_loop,
        Reader::single_word,
        Reader::dimension,
        Reader::read,
        Reader::print,
    ];
    let forms = if level >= Level::Cards { &forms[..] } else { &forms[..7] };
    forms.iter().filter_map(|form| whole(k, text, *form)).collect()
}

/// "the whole text must then be of one form".
fn whole<'t>(k: u32, text: &'t [u8], form: FormReader<'t>) -> Option<Reading> {
    let mut reader = Reader {
        k,
        rest: text,
        depth: 0,
        fault: None,
    };
    let form = form(&mut reader)?;
    reader.rest.is_empty().then_some(Reading {
        form,
        fault: reader.fault,
    })
}

type FormReader<'t> = fn(&mut Reader<'t>) -> Option<Form>;

/// Reads from the front of a text. None: the text is not of the form being read.
struct Reader<'t> {
    k: u32,
    rest: &'t [u8],
    depth: usize,
    fault: Option<u32>,
}

impl<'t> Reader<'t> {
    fn assignment(&mut self) -> Option<Form> {
        let target = self.reference()?;
        self.mark(b'=')?;
        Some(Form::Assign {
            target,
            value: self.expression()?,
        })
    }

    fn go_to(&mut self) -> Option<Form> {
        self.word("GOTO")?;
        Some(Form::GoTo(self.number()?))
    }

    /// "with 2 to 10 exits"
    fn computed_go_to(&mut self) -> Option<Form> {
        self.word("GOTO(")?;
        let mut exits = vec![self.number()?];
        while self.mark(b',').is_some() {
            exits.push(self.number()?);
        }
        self.word("),")?;
        let selector = self.name()?;
        (2..=10)
            .contains(&exits.len())
            .then_some(Form::Computed { exits, selector })
    }

    fn arithmetic_if(&mut self) -> Option<Form> {
        self.word("IF(")?;
        let value = self.expression()?;
        self.mark(b')')?;
        let below = self.number()?;
        self.mark(b',')?;
        let at = self.number()?;
        self.mark(b',')?;
        let above = self.number()?;
        Some(Form::If {
            value,
            exits: [below, at, above],
        })
    }

    fn do_loop(&mut self) -> Option<Form> {
        self.word("DO")?;
        let last = self.number()?;
        let variable = self.name()?;
        self.mark(b'=')?;
        let first = self.parameter()?;
        self.mark(b',')?;
        let limit = self.parameter()?;
        let step = match self.mark(b',') {
            Some(()) => Some(self.parameter()?),
            None => None,
        };
        Some(Form::Do(Do {
            last,
            variable,
            first,
            limit,
            step,
        }))
    }

    fn single_word(&mut self) -> Option<Form> {
        let words = [("CONTINUE", Form::Continue), ("STOP", Form::Stop), ("END", Form::End)];
        words
            .into_iter()
            .find_map(|(word, form)| self.word(word).map(|()| form))
    }

    fn dimension(&mut self) -> Option<Form> {
        self.word("DIMENSION")?;
        let mut arrays = vec![self.array()?];
        while self.mark(b',').is_some() {
            arrays.push(self.array()?);
        }
        Some(Form::Dimension(arrays))
    }

    fn read(&mut self) -> Option<Form> {
        self.word("READ")?;
        self.transfer().map(Form::Read)
    }

    fn print(&mut self) -> Option<Form> {
        self.word("PRINT")?;
        self.transfer().map(Form::Print)
    }

    /// "List items are `v`, `v(s)`, `v(s,s)`".
    fn transfer(&mut self) -> Option<Transfer> {
        let format = self.number()?;
        let mut list = Vec::new();
        while self.mark(b',').is_some() {
            list.push(self.reference()?);
        }
        Some(Transfer { format, list })
    }

    fn array(&mut self) -> Option<Array> {
        let name = self.name()?;
        self.mark(b'(')?;
        let rows = self.constant()?;
        let columns = match self.mark(b',') {
            Some(()) => Some(self.constant()?),
            None => None,
        };
        self.mark(b')')?;
        Some(Array { name, rows, columns })
    }

    fn parameter(&mut self) -> Option<Parameter> {
        if self.digit_next() {
            self.constant().map(Parameter::Constant)
        } else {
            self.name().map(Parameter::Name)
        }
    }

    fn expression(&mut self) -> Option<Expression> {
        let minus = self.sign() == Some(Sum::Minus);
        let first = self.term()?;
        let mut rest = Vec::new();
        while let Some(joint) = self.sign() {
            rest.push((joint, self.term()?));
        }
        Some(Expression { minus, first, rest })
    }

    fn term(&mut self) -> Option<Term> {
        let first = self.factor()?;
        let mut rest = Vec::new();
        while let Some(joint) = self.product() {
            rest.push((joint, self.factor()?));
        }
        Some(Term { first, rest })
    }

    fn factor(&mut self) -> Option<Factor> {
        if self.mark(b'(').is_some() {
            return self.parenthesis();
        }
        if self.digit_next() {
            return self.constant().map(Factor::Constant);
        }
        self.reference().map(Factor::Reference)
    }

    /// "14: parentheses over sixteen deep"; "an IF's and an element's not counted".
    fn parenthesis(&mut self) -> Option<Factor> {
        self.depth += 1;
        if self.depth > PARENTHESES {
            self.breaks(14);
        }
        let inner = self.expression()?;
        self.mark(b')')?;
        self.depth -= 1;
        Some(Factor::Parenthesis(Box::new(inner)))
    }

    fn reference(&mut self) -> Option<Reference> {
        let name = self.name()?;
        let mut subscripts = Vec::new();
        if self.mark(b'(').is_some() {
            subscripts.push(self.subscript()?);
            if self.mark(b',').is_some() {
                subscripts.push(self.subscript()?);
            }
            self.mark(b')')?;
        }
        Some(Reference { name, subscripts })
    }

    fn subscript(&mut self) -> Option<Subscript> {
        let mut multiplier = 1;
        if self.digit_next() {
            multiplier = self.constant()?;
            if self.mark(b'*').is_none() {
                return Some(Subscript::Constant(multiplier));
            }
        }
        let name = self.name()?;
        let addend = match self.sign() {
            None => 0,
            Some(Sum::Plus) => i64::from(self.constant()?),
            Some(Sum::Minus) => -i64::from(self.constant()?),
        };
        Some(Subscript::Linear {
            multiplier,
            name,
            addend,
        })
    }

    fn sign(&mut self) -> Option<Sum> {
        if self.mark(b'+').is_some() {
            return Some(Sum::Plus);
        }
        self.mark(b'-').map(|()| Sum::Minus)
    }

    fn product(&mut self) -> Option<Product> {
        if self.mark(b'*').is_some() {
            return Some(Product::Times);
        }
        self.mark(b'/').map(|()| Product::Over)
    }

    /// `v`, "a letter then letters or digits"; "11: name over six characters or not starting I-N".
    fn name(&mut self) -> Option<Name> {
        if !self.rest.first()?.is_ascii_uppercase() {
            return None;
        }
        let name = self.run(|c| c.is_ascii_uppercase() || c.is_ascii_digit());
        if name.len() > 6 || !(b'I'..=b'N').contains(&name[0]) {
            self.breaks(11);
        }
        Some(name.iter().map(|&c| char::from(c)).collect())
    }

    /// `c`; "12: constant over k digits as written".
    fn constant(&mut self) -> Option<u32> {
        let digits = self.digits()?;
        if digits.len() > self.k as usize {
            self.breaks(12);
        }
        Some(value_of(digits))
    }

    /// `n`; "13: number in the text not 1-99999".
    fn number(&mut self) -> Option<StatementNumber> {
        let value = value_of(self.digits()?);
        if !(1..=LARGEST_NUMBER).contains(&value) {
            self.breaks(13);
        }
        Some(StatementNumber(value))
    }

    fn digits(&mut self) -> Option<&'t [u8]> {
        if !self.digit_next() {
            return None;
        }
        Some(self.run(|c| c.is_ascii_digit()))
    }

    fn digit_next(&self) -> bool {
        self.rest.first().is_some_and(u8::is_ascii_digit)
    }

    /// Takes the characters from the front that belong.
    fn run(&mut self, belongs: fn(u8) -> bool) -> &'t [u8] {
        let end = self.rest.iter().position(|&c| !belongs(c)).unwrap_or(self.rest.len());
        let (taken, rest) = self.rest.split_at(end);
        self.rest = rest;
        taken
    }

    fn mark(&mut self, mark: u8) -> Option<()> {
        self.rest = self.rest.strip_prefix(&[mark])?;
        Some(())
    }

    fn word(&mut self, word: &str) -> Option<()> {
        self.rest = self.rest.strip_prefix(word.as_bytes())?;
        Some(())
    }

    /// "in each card or statement the lowest number".
    fn breaks(&mut self, number: u32) {
        self.fault = Some(self.fault.map_or(number, |lower| lower.min(number)));
    }
}

/// The value of a run of digits; one too long for a u32 counts as the largest u32.
fn value_of(digits: &[u8]) -> u32 {
    digits.iter().fold(0u32, |sum, d| {
        sum.saturating_mul(10).saturating_add(u32::from(d - b'0'))
    })
}
