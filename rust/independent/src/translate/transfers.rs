//! Translation of READ, PRINT and FORMAT (02, 2026-01), to bodies 8, 9 and 10.

use super::{within, Judged, Translator};
use crate::cards::StatementNumber;
use crate::format::{again, Field};
use crate::limits;
use crate::object::{pack, word, ItemEntry, TransferEntry};
use crate::reader::{Reference, Transfer};

impl Translator {
    /// "A FORMAT is its words in order, written out, then its end word. FORMATs stand in the order of the text, used or
    /// not."
    pub(super) fn lay_format(&mut self, number: Option<StatementNumber>, list: &[Field]) -> Judged<()> {
        let first = self.tables.words.len();
        // Counted first: the words of repeated groups may be more than there is room for anywhere.
        let total = count(list).saturating_add(first + 1);
        within(total, limits::FORMAT_WORDS)?;
        let back = first + count(&list[..again(list)]);
        write_out(list, &mut self.tables.words);
        self.tables.words.push(pack(word::END, back as u32));
        self.formats.extend(number.map(|number| (number, first as u32)));
        Ok(())
    }

    /// One operation; the FORMAT's first word is not known before the deck's end.
    pub(super) fn emit_transfer(&mut self, operation: u32, transfer: &Transfer) -> Judged<()> {
        let first = self.tables.items.len() as u32;
        for reference in &transfer.list {
            let item = self.item(reference)?;
            within(self.tables.items.len() + 1, limits::LIST_ITEMS)?;
            self.tables.items.push(item);
        }
        within(self.tables.transfers.len() + 1, limits::TRANSFERS)?;
        self.used_formats.push(transfer.format);
        self.tables.transfers.push(TransferEntry {
            format: 0,
            first,
            count: transfer.list.len() as u32,
        });
        self.code(operation, self.tables.transfers.len() as u32 - 1)
    }

    fn item(&mut self, reference: &Reference) -> Judged<ItemEntry> {
        if !reference.subscripts.is_empty() {
            let first = self.element(reference)?;
            return Ok(ItemEntry { first, count: 0 });
        }
        let (first, count) = self
            .known(&reference.name)
            .map_or((0, 0), |entry| (entry.first, entry.size() as u32));
        Ok(ItemEntry { first, count })
    }

    /// "Two statements with one FORMAT share its words."
    pub(super) fn settle_formats(&mut self) {
        for (transfer, used) in self.tables.transfers.iter_mut().zip(&self.used_formats) {
            let format = self.formats.iter().find(|(number, _)| number == used);
            transfer.format = format.map_or(0, |(_, first)| *first);
        }
    }
}

/// The words of a list written out.
fn count(list: &[Field]) -> usize {
    let sizes = list.iter().map(|field| match field {
        Field::Number { repeat, .. } => *repeat as usize,
        Field::Blanks(_) | Field::Slash => 1,
        Field::Text(text) => text.len(),
        Field::Group { repeat, list } => count(list).saturating_mul(*repeat as usize),
    });
    sizes.fold(0, usize::saturating_add)
}

/// "the same effect as specifying the item r times" (001); "an H field one word for each character".
fn write_out(list: &[Field], words: &mut Vec<u32>) {
    for field in list {
        match field {
            Field::Number { repeat, width } => (0..*repeat).for_each(|_| words.push(pack(word::NUMBER, *width))),
            Field::Blanks(columns) => words.push(pack(word::BLANKS, *columns)),
            Field::Text(text) => words.extend(text.iter().map(|c| pack(word::TEXT, u32::from(*c)))),
            Field::Slash => words.push(pack(word::SLASH, 0)),
            Field::Group { repeat, list } => (0..*repeat).for_each(|_| write_out(list, words)),
        }
    }
}
