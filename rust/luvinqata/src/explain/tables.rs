//! 18: which table a statement takes over its limit.

use std::collections::BTreeSet;

use super::forms::{Form, Part, Read};
use super::text::Text;
use super::Explanation;

/// What the statements so far have brought.
#[derive(Default)]
struct Tables {
    names: BTreeSet<String>,
    constants: BTreeSet<u32>,
    dos: usize,
    elements: usize,
    exits: usize,
    code: usize,
    cells: u64,
}

/// 18
pub fn overfull(texts: &[Text], index: usize) -> Option<Explanation> {
    let mut tables = Tables::default();
    for text in texts.get(..=index)? {
        tables.take(text, text.read.as_ref().ok()?);
    }
    let counts: [(&str, u64, u64, &str); 7] = [
        ("names", tables.names.len() as u64, 100, "use a name again"),
        ("DOs", tables.dos as u64, 64, "make two decks of it"),
        (
            "different constants",
            tables.constants.len() as u64,
            256,
            "make two decks of it",
        ),
        (
            "elements written out",
            tables.elements as u64,
            256,
            "use an element's value by a plain name",
        ),
        ("exits", tables.exits as u64, 1_024, "a GO TO after one IF serves many"),
        ("instructions", tables.code as u64, 4_096, "make two decks of it"),
        ("cells", tables.cells, 4_096, "make the arrays smaller"),
    ];
    let (what, count, most, advice) = counts.into_iter().find(|(_, count, most, _)| count > most)?;
    let words = format!("with this statement the deck has {count} {what}");
    Some(Explanation::new(
        texts[index].whole(),
        words,
        format!("{most} at most; {advice}"),
    ))
}

impl Tables {
    fn take(&mut self, text: &Text, read: &Read) {
        if read.form == Form::Dimension {
            return self.declare(text, read);
        }
        for piece in &read.pieces {
            match piece.part {
                Part::Name { subscripts } => {
                    let new = self.names.insert(text.written(piece));
                    self.cells += u64::from(new);
                    self.elements += usize::from(subscripts > 0);
                }
                Part::Constant { pooled: true } => {
                    self.constants.insert(text.value(piece));
                }
                _ => {}
            }
        }
        self.translate(text, read);
    }

    fn declare(&mut self, text: &Text, read: &Read) {
        let mut size = 0;
        for piece in &read.pieces {
            match piece.part {
                Part::Name { .. } => {
                    self.cells += size;
                    self.names.insert(text.written(piece));
                    size = 1;
                }
                _ => size *= u64::from(text.value(piece)),
            }
        }
        self.cells += size;
    }

    /// What the form brings besides its operands.
    fn translate(&mut self, text: &Text, read: &Read) {
        let numbers = text.numbers().count();
        let (exits, code) = match read.form {
            Form::Assignment => (0, read.instructions),
            Form::If => (numbers, read.instructions + 1),
            Form::Computed => (numbers + 1, 2),
            // Three parameters, the DO's beginning and the end of its turn.
            Form::Do => (0, 5),
            Form::GoTo | Form::Stop | Form::End => (0, 1),
            Form::Continue | Form::Dimension => (0, 0),
        };
        self.exits += exits;
        self.code += code;
        if read.form == Form::Do {
            self.dos += 1;
            // Its limit and step.
            self.cells += 2;
            let parameters = read.pieces.len() - 2;
            if parameters == 2 {
                self.constants.insert(1);
            }
        }
    }
}
