//! The forms of a statement, read as far as they go. What is read is kept as a list of pieces, in the order of the text.

use std::ops::Range;

use super::reader::Reader;

/// What a statement is.
#[derive(Clone, Copy, Debug, PartialEq, Eq)]
pub enum Form {
    Assignment,
    GoTo,
    Computed,
    If,
    Do,
    Continue,
    Stop,
    End,
    Dimension,
}

/// A piece of a text that a rule may be about.
#[derive(Clone, Copy, Debug, PartialEq, Eq)]
pub enum Part {
    /// A name, with so many subscripts or dimensions.
    Name { subscripts: usize },
    /// A constant; those of expressions and DOs are pooled.
    Constant { pooled: bool },
    /// A statement number.
    Number,
    /// A parenthesis that opens so deep in an expression.
    Parenthesis { depth: usize },
}

pub struct Piece {
    pub part: Part,
    pub at: Range<usize>,
}

impl Piece {
    pub fn len(&self) -> usize {
        self.at.len()
    }
}

/// A text of one form.
pub struct Read {
    pub form: Form,
    pub pieces: Vec<Piece>,
    /// The instructions of its operands, of joining them and of its target.
    pub instructions: usize,
}

/// A text of no form: how far it could be read, and what was wanted there.
#[derive(Clone, Copy, Default)]
pub struct Stuck {
    pub at: usize,
    pub wanted: &'static str,
    /// A parenthesis is open there.
    pub open: bool,
}

/// Reads from where the reader stands. None: the text is not of this form.
type Reads<'t> = fn(&mut Reader<'t>) -> Option<()>;

pub fn read(text: &[u8]) -> Result<Read, Stuck> {
    // No text is of two forms. Where two can be read equally far, the later one tells what is wanted.
    let forms: [(Form, Reads); 9] = [
        (Form::Assignment, Reader::assignment),
        (Form::GoTo, Reader::go_to),
        (Form::Computed, Reader::computed_go_to),
        (Form::If, Reader::arithmetic_if),
        (Form::Do, Reader::do_loop),
        (Form::Continue, |reader| reader.word("CONTINUE")),
        (Form::Stop, |reader| reader.word("STOP")),
        (Form::End, |reader| reader.word("END")),
        (Form::Dimension, Reader::dimension),
    ];
    let mut furthest = Stuck::default();
    for (form, reads) in forms {
        let mut reader = Reader::new(text);
        if reads(&mut reader).and_then(|()| reader.end(form)).is_some() {
            return Ok(Read {
                form,
                pieces: reader.pieces,
                instructions: reader.instructions,
            });
        }
        let begun = reader.at > 0 && form != Form::Assignment && meant(text);
        if !reader.stuck.wanted.is_empty() && (begun || reader.stuck.at >= furthest.at) {
            furthest = reader.stuck;
        }
    }
    Err(furthest)
}

/// Whether a word that a statement begins with is meant as one, though an assignment could be read further.
fn meant(text: &[u8]) -> bool {
    match text {
        [b'D', b'O', b'0'..=b'9', ..] => text.contains(&b','),
        _ => !text.contains(&b'='),
    }
}

/// What may follow an operand of an assignment, and in parentheses.
pub const OPERATOR_OR_END: &str = "an operator or the end of the statement";
pub const OPERATOR_OR_CLOSE: &str = "an operator or ')'";
const OPERAND: &str = "a constant, a name or a parenthesis";
const SUBSCRIPT: &str = "a subscript like I, 5, I+5, I-5, 5*I, 5*I+5 or 5*I-5";
const PARAMETER: &str = "a constant or a name";

impl Reader<'_> {
    fn assignment(&mut self) -> Option<()> {
        self.reference()?;
        self.mark(b'=', "'='")?;
        self.expression()
    }

    fn go_to(&mut self) -> Option<()> {
        self.word("GOTO")?;
        self.number()
    }

    fn computed_go_to(&mut self) -> Option<()> {
        self.word("GOTO(")?;
        self.number()?;
        self.mark(b',', "a second statement number after a comma")?;
        self.number()?;
        for _ in 2..10 {
            if self.next() == Some(b',') {
                self.at += 1;
                self.number()?;
            }
        }
        self.mark(b')', "')' after two to ten statement numbers")?;
        self.mark(b',', "a comma and a name")?;
        self.name("a name")
    }

    fn arithmetic_if(&mut self) -> Option<()> {
        self.word("IF(")?;
        self.expression()?;
        self.mark(b')', OPERATOR_OR_CLOSE)?;
        self.number()?;
        self.mark(b',', "the second of three statement numbers")?;
        self.number()?;
        self.mark(b',', "the third of three statement numbers")?;
        self.number()
    }

    fn do_loop(&mut self) -> Option<()> {
        self.word("DO")?;
        self.number()?;
        self.name("the DO's variable")?;
        self.mark(b'=', "'='")?;
        self.parameter()?;
        self.mark(b',', "a comma and the DO's limit")?;
        self.parameter()?;
        if self.next() == Some(b',') {
            self.at += 1;
            self.parameter()?;
        }
        Some(())
    }

    fn dimension(&mut self) -> Option<()> {
        self.word("DIMENSION")?;
        loop {
            self.name("an array's name")?;
            let name = self.pieces.len() - 1;
            self.mark(b'(', "'(' with the dimensions")?;
            self.constant(false, "a constant as dimension")?;
            let mut dimensions = 1;
            if self.next() == Some(b',') {
                self.at += 1;
                self.constant(false, "a constant as dimension")?;
                dimensions = 2;
            }
            self.mark(b')', "')' after one or two dimensions")?;
            self.pieces[name].part = Part::Name { subscripts: dimensions };
            if self.next() != Some(b',') {
                return Some(());
            }
            self.at += 1;
        }
    }

    fn parameter(&mut self) -> Option<()> {
        match self.next() {
            Some(b'0'..=b'9') => self.constant(true, PARAMETER),
            _ => self.name(PARAMETER),
        }
    }

    fn expression(&mut self) -> Option<()> {
        if let Some(sign @ (b'+' | b'-')) = self.next() {
            self.at += 1;
            self.instructions += usize::from(sign == b'-');
        }
        self.factor()?;
        while let Some(b'+' | b'-' | b'*' | b'/') = self.next() {
            self.at += 1;
            self.instructions += 1;
            self.factor()?;
        }
        Some(())
    }

    fn factor(&mut self) -> Option<()> {
        match self.next() {
            Some(b'(') => {
                self.depth += 1;
                let depth = self.depth;
                self.take(Part::Parenthesis { depth }, 1);
                self.expression()?;
                self.mark(b')', OPERATOR_OR_CLOSE)?;
                self.depth -= 1;
                Some(())
            }
            Some(b'0'..=b'9') => {
                self.instructions += 1;
                self.constant(true, OPERAND)
            }
            Some(b'A'..=b'Z') => self.reference(),
            _ => self.fail(OPERAND),
        }
    }

    fn reference(&mut self) -> Option<()> {
        self.name("a name")?;
        self.instructions += 1;
        let name = self.pieces.len() - 1;
        if self.next() != Some(b'(') {
            return Some(());
        }
        self.at += 1;
        self.subscript()?;
        let mut subscripts = 1;
        if self.next() == Some(b',') {
            self.at += 1;
            self.subscript()?;
            subscripts = 2;
        }
        self.mark(b')', SUBSCRIPT)?;
        self.pieces[name].part = Part::Name { subscripts };
        Some(())
    }

    fn subscript(&mut self) -> Option<()> {
        if let Some(b'0'..=b'9') = self.next() {
            self.constant(false, SUBSCRIPT)?;
            if self.next() != Some(b'*') {
                return Some(());
            }
            self.at += 1;
        }
        self.name(SUBSCRIPT)?;
        if let Some(b'+' | b'-') = self.next() {
            self.at += 1;
            self.constant(false, SUBSCRIPT)?;
        }
        Some(())
    }
}
