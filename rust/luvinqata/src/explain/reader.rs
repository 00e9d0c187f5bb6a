//! A text read from its front, piece by piece.

use super::forms::{Form, Part, Piece, Stuck, OPERATOR_OR_END};

/// None from one of its functions: the text is not of the form that is being read, and `stuck` tells where.
pub struct Reader<'t> {
    text: &'t [u8],
    /// How much is read.
    pub at: usize,
    /// How many parentheses are open.
    pub depth: usize,
    pub pieces: Vec<Piece>,
    pub instructions: usize,
    pub stuck: Stuck,
}

impl<'t> Reader<'t> {
    pub fn new(text: &'t [u8]) -> Reader<'t> {
        Reader {
            text,
            at: 0,
            depth: 0,
            pieces: Vec::new(),
            instructions: 0,
            stuck: Stuck::default(),
        }
    }

    pub fn name(&mut self, wanted: &'static str) -> Option<()> {
        if !matches!(self.next(), Some(b'A'..=b'Z')) {
            return self.fail(wanted);
        }
        let rest = self.run(|letter| letter.is_ascii_uppercase() || letter.is_ascii_digit());
        self.take(Part::Name { subscripts: 0 }, rest)
    }

    pub fn constant(&mut self, pooled: bool, wanted: &'static str) -> Option<()> {
        match self.run(|letter| letter.is_ascii_digit()) {
            0 => self.fail(wanted),
            digits => self.take(Part::Constant { pooled }, digits),
        }
    }

    pub fn number(&mut self) -> Option<()> {
        match self.run(|letter| letter.is_ascii_digit()) {
            0 => self.fail("a statement number"),
            digits => self.take(Part::Number, digits),
        }
    }

    /// How many characters from here on belong together.
    fn run(&self, belongs: fn(&u8) -> bool) -> usize {
        self.text[self.at..].iter().take_while(|letter| belongs(letter)).count()
    }

    pub fn take(&mut self, part: Part, length: usize) -> Option<()> {
        let at = self.at..self.at + length;
        self.at = at.end;
        self.pieces.push(Piece { part, at });
        Some(())
    }

    pub fn next(&self) -> Option<u8> {
        self.text.get(self.at).copied()
    }

    pub fn mark(&mut self, mark: u8, wanted: &'static str) -> Option<()> {
        if self.next() != Some(mark) {
            return self.fail(wanted);
        }
        self.at += 1;
        Some(())
    }

    /// A word that is not there is no reading at all, however much of it is.
    pub fn word(&mut self, word: &'static str) -> Option<()> {
        let found = self.text[self.at..].starts_with(word.as_bytes());
        self.at += if found { word.len() } else { 0 };
        found.then_some(())
    }

    pub fn end(&mut self, form: Form) -> Option<()> {
        match (self.next(), form) {
            (None, _) => Some(()),
            (_, Form::Assignment) => self.fail(OPERATOR_OR_END),
            _ => self.fail("the end of the statement"),
        }
    }

    pub fn fail(&mut self, wanted: &'static str) -> Option<()> {
        self.stuck = Stuck {
            at: self.at,
            wanted,
            open: self.depth > 0,
        };
        None
    }
}
