//! READ, PRINT and FORMAT in a random program.

use super::Writer;
use crate::generate::formats;

impl Writer<'_> {
    /// A READ or PRINT, with its FORMAT before it or after it or one that there is; returns its index.
    pub(super) fn transfer(&mut self) -> usize {
        let read = self.rng.chance(45);
        let list = self.list(read);
        let word = if read { "READ" } else { "PRINT" };
        let text = format!("{word}%{list}");
        let numbered = !list.is_empty() && !self.slip(6);
        let reused = !self.formats.is_empty() && self.rng.chance(30);
        let (index, format) = match (reused, self.rng.chance(50)) {
            (true, _) => (self.draft(&text), *self.rng.pick(&self.formats)),
            (false, true) => {
                let format = self.format(numbered);
                (self.draft(&text), format)
            }
            (false, false) => {
                let index = self.draft(&text);
                (index, self.format(numbered))
            }
        };
        let wrong = self.slip(4);
        self.drafts[index].format = Some(if wrong {
            self.rng.below(self.drafts.len())
        } else {
            format
        });
        index
    }

    fn format(&mut self, numbered: bool) -> usize {
        let text = formats::format(self.rng, numbered);
        let index = self.draft(&text);
        self.drafts[index].numbered = !self.slip(4);
        if numbered {
            self.formats.push(index);
        }
        index
    }

    /// Items with a comma before each, or nothing.
    fn list(&mut self, read: bool) -> String {
        let items = *self.rng.pick(&[0, 1, 1, 2, 2, 3, 4, 6]);
        (0..items).map(|_| format!(",{}", self.item(read))).collect()
    }

    /// What a READ sets is no variable of a DO around it.
    fn item(&mut self, read: bool) -> String {
        if !self.arrays.is_empty() && self.rng.chance(20) {
            return self.rng.pick(&self.arrays).name.to_string();
        }
        if read || self.rng.chance(30) {
            return self.target();
        }
        self.plain()
    }
}
