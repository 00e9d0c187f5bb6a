//! Translation (01 "Translation"), statement by statement, with refusals 15, 16 and 18.

mod mentions;
mod transfers;

use crate::cards::{Sequence, StatementNumber};
use crate::compile::Statement;
use crate::limits;
use crate::object::{pack, DoEntry, Edition, ElementEntry, NameEntry, StatementEntry, SubscriptEntry, Tables};
use crate::operation::*;
use crate::reader::{Array, Do, Expression, Factor, Form, Parameter, Product, Reference, Subscript, Sum, Term};
use mentions::mentions;

/// An exit word before the statements' addresses are known.
enum Exit {
    Count(u32),
    To(StatementNumber),
}

/// What the deck has brought so far.
pub struct Translator {
    /// All but the exits, the targets of JMP and the FORMATs of transfers, which wait in the next three.
    tables: Tables,
    exits: Vec<Exit>,
    jumps: Vec<(usize, StatementNumber)>,
    used_formats: Vec<StatementNumber>,
    /// Each FORMAT's number and first word.
    formats: Vec<(StatementNumber, u32)>,
    /// DOs whose last statement has not come: its number, and the DO's entry.
    open: Vec<(StatementNumber, u32)>,
    addresses: Vec<(StatementNumber, u32)>,
}

type Judged<T> = Result<T, u32>;

impl Translator {
    pub fn new(edition: Edition, k: u32) -> Translator {
        Translator {
            tables: Tables::empty_of(edition, k),
            exits: Vec::new(),
            jumps: Vec::new(),
            used_formats: Vec::new(),
            formats: Vec::new(),
            open: Vec::new(),
            addresses: Vec::new(),
        }
    }

    /// Takes the next statement, or gives the lowest of 15, 16 and 18 that it breaks.
    pub fn take(&mut self, statement: &Statement) -> Judged<()> {
        if let Form::Dimension(arrays) = &statement.form {
            self.arrays_right(arrays)?;
            return self.declare(arrays);
        }
        if let Form::Format(list) = &statement.form {
            return self.lay_format(statement.number, list);
        }
        let mentions = mentions(&statement.form);
        for (name, subscripts) in &mentions {
            self.mention_right(name, *subscripts)?;
        }
        for (name, _) in &mentions {
            self.meet(name)?;
        }
        self.enter(statement.sequence, statement.number)?;
        self.emit(&statement.form)?;
        if let Some(number) = statement.number {
            self.end_turns(number);
        }
        Ok(())
    }

    /// The finished tables of a deck that broke nothing.
    pub fn finish(mut self) -> Tables {
        self.settle_formats();
        let addresses = self.addresses;
        let address = |number: StatementNumber| {
            addresses
                .iter()
                .find(|(defined, _)| *defined == number)
                .map_or(0, |(_, address)| *address)
        };
        for (index, number) in &self.jumps {
            self.tables.code[*index] = pack(JMP, address(*number));
        }
        self.tables.exits = self
            .exits
            .iter()
            .map(|exit| match exit {
                Exit::Count(count) => *count,
                Exit::To(number) => address(*number),
            })
            .collect();
        self.tables
    }

    /// "15: dimension 0; array's name already seen or ending in F".
    fn arrays_right(&self, arrays: &[Array]) -> Judged<()> {
        for (index, array) in arrays.iter().enumerate() {
            let seen = self.known(&array.name).is_some() || arrays[..index].iter().any(|a| a.name == array.name);
            if array.rows == 0 || array.columns == Some(0) || seen || array.name.ends_with('F') {
                return Err(15);
            }
        }
        Ok(())
    }

    /// "16: element of an undeclared array or wrong subscript count; array name bare".
    fn mention_right(&self, name: &str, subscripts: Option<usize>) -> Judged<()> {
        let declared = self.known(name).map_or(0, dimensions);
        if subscripts.is_none_or(|count| count == declared) {
            Ok(())
        } else {
            Err(16)
        }
    }

    /// "an array all its cells at its DIMENSION".
    fn declare(&mut self, arrays: &[Array]) -> Judged<()> {
        for array in arrays {
            let size = u64::from(array.rows) * u64::from(array.columns.unwrap_or(1));
            self.add_name(&array.name, size, array.rows, array.columns.unwrap_or(0))?;
        }
        Ok(())
    }

    /// "Cells go in order of first appearance in the text: a name one cell".
    fn meet(&mut self, name: &str) -> Judged<()> {
        if self.known(name).is_some() {
            return Ok(());
        }
        self.add_name(name, 1, 0, 0)
    }

    fn add_name(&mut self, name: &str, size: u64, rows: u32, columns: u32) -> Judged<()> {
        let first = self.take_cells(size)?;
        let mut filled = [b' '; 8];
        filled[..name.len()].copy_from_slice(name.as_bytes());
        within(self.tables.names.len() + 1, limits::NAMES)?;
        self.tables.names.push(NameEntry {
            name: filled,
            first,
            rows,
            columns,
        });
        Ok(())
    }

    fn take_cells(&mut self, size: u64) -> Judged<u32> {
        let first = self.tables.cells;
        let total = u64::from(first) + size;
        if total > limits::CELLS as u64 {
            return Err(18);
        }
        self.tables.cells = total as u32;
        Ok(first)
    }

    fn known(&self, name: &str) -> Option<&NameEntry> {
        self.tables
            .names
            .iter()
            .find(|entry| entry.name.trim_ascii_end() == name.as_bytes())
    }

    fn cell(&self, name: &str) -> u32 {
        self.known(name).map_or(0, |entry| entry.first)
    }

    /// Body 6, "executable statements and END".
    fn enter(&mut self, sequence: Sequence, number: Option<StatementNumber>) -> Judged<()> {
        let address = self.here();
        if let Some(number) = number {
            self.addresses.push((number, address));
        }
        let number = number.map_or(0, |StatementNumber(n)| n);
        self.tables.statements.push(StatementEntry {
            sequence: sequence.0,
            number,
            address,
        });
        Ok(())
    }

    fn here(&self) -> u32 {
        self.tables.code.len() as u32
    }

    fn emit(&mut self, form: &Form) -> Judged<()> {
        match form {
            Form::Assign { target, value } => self.emit_assignment(target, value),
            Form::GoTo(number) => self.emit_go_to(*number),
            Form::Computed { exits, selector } => self.emit_computed(exits, selector),
            Form::If { value, exits } => self.emit_if(value, exits),
            Form::Do(parts) => self.emit_do(parts),
            Form::Stop => self.code(HLT, 0),
            Form::End => self.code(HLT, 1),
            Form::Read(transfer) => self.emit_transfer(READ, transfer),
            Form::Print(transfer) => self.emit_transfer(PRINT, transfer),
            Form::Continue | Form::Dimension(_) | Form::Format(_) => Ok(()),
        }
    }

    /// "Assignment: e, STO or STE."
    fn emit_assignment(&mut self, target: &Reference, value: &Expression) -> Judged<()> {
        self.emit_expression(value)?;
        if target.subscripts.is_empty() {
            return self.code(STO, self.cell(&target.name));
        }
        let element = self.element(target)?;
        self.code(STE, element)
    }

    /// "GO TO: JMP."
    fn emit_go_to(&mut self, number: StatementNumber) -> Judged<()> {
        self.jumps.push((self.tables.code.len(), number));
        self.code(JMP, 0)
    }

    /// "Computed GO TO: LOD, BRC"; "exit word x is the count, targets follow".
    fn emit_computed(&mut self, exits: &[StatementNumber], selector: &str) -> Judged<()> {
        self.code(LOD, self.cell(selector))?;
        let first = self.exit(Exit::Count(exits.len() as u32))?;
        for number in exits {
            self.exit(Exit::To(*number))?;
        }
        self.code(BRC, first)
    }

    /// "IF: e, BR3."
    fn emit_if(&mut self, value: &Expression, exits: &[StatementNumber; 3]) -> Judged<()> {
        self.emit_expression(value)?;
        let first = self.exits.len() as u32;
        for number in exits {
            self.exit(Exit::To(*number))?;
        }
        self.code(BR3, first)
    }

    /// "DO: m1, m2, m3 (the constant 1 if missing), DOI; the body address follows it."
    fn emit_do(&mut self, parts: &Do) -> Judged<()> {
        let limit = self.take_cells(2)?;
        self.emit_parameter(&parts.first)?;
        self.emit_parameter(&parts.limit)?;
        self.emit_parameter(parts.step.as_ref().unwrap_or(&Parameter::Constant(1)))?;
        let entry = self.tables.dos.len() as u32;
        self.code(DOI, entry)?;
        let variable = self.cell(&parts.variable);
        within(self.tables.dos.len() + 1, limits::DOS)?;
        self.tables.dos.push(DoEntry {
            variable,
            limit,
            step: limit + 1,
            body: self.here(),
        });
        // "(a DO brings its DOE)"
        self.open.push((parts.last, entry));
        within(self.code_total(), limits::CODE)
    }

    fn emit_parameter(&mut self, parameter: &Parameter) -> Judged<()> {
        match parameter {
            Parameter::Constant(value) => self.emit_constant(*value),
            Parameter::Name(name) => self.code(LOD, self.cell(name)),
        }
    }

    /// "After a last statement, its DOEs", the latest DO's first.
    fn end_turns(&mut self, number: StatementNumber) {
        let (ending, open) = self.open.iter().partition(|(last, _)| *last == number);
        self.open = open;
        let ending: Vec<(StatementNumber, u32)> = ending;
        for (_, entry) in ending.iter().rev() {
            self.tables.code.push(pack(DOE, *entry));
        }
    }

    /// "Code is postfix: the first term, NEG if its sign is minus, then each further term with
    /// its operation."
    fn emit_expression(&mut self, expression: &Expression) -> Judged<()> {
        self.emit_term(&expression.first)?;
        if expression.minus {
            self.code(NEG, 0)?;
        }
        for (joint, term) in &expression.rest {
            self.emit_term(term)?;
            let operation = match joint {
                Sum::Plus => ADD,
                Sum::Minus => SUB,
            };
            self.code(operation, 0)?;
        }
        Ok(())
    }

    fn emit_term(&mut self, term: &Term) -> Judged<()> {
        self.emit_factor(&term.first)?;
        for (joint, factor) in &term.rest {
            self.emit_factor(factor)?;
            let operation = match joint {
                Product::Times => MUL,
                Product::Over => DIV,
            };
            self.code(operation, 0)?;
        }
        Ok(())
    }

    fn emit_factor(&mut self, factor: &Factor) -> Judged<()> {
        match factor {
            Factor::Constant(value) => self.emit_constant(*value),
            Factor::Parenthesis(inner) => self.emit_expression(inner),
            Factor::Reference(reference) if reference.subscripts.is_empty() => {
                self.code(LOD, self.cell(&reference.name))
            }
            Factor::Reference(reference) => {
                let element = self.element(reference)?;
                self.code(LDE, element)
            }
        }
    }

    /// "Constants are pooled by value in order of emission".
    fn emit_constant(&mut self, value: u32) -> Judged<()> {
        let pooled = self.tables.constants.iter().position(|c| *c == value);
        let index = match pooled {
            Some(index) => index,
            None => {
                within(self.tables.constants.len() + 1, limits::CONSTANTS)?;
                self.tables.constants.push(value);
                self.tables.constants.len() - 1
            }
        };
        self.code(CON, index as u32)
    }

    /// "Each element reference has its own entry".
    fn element(&mut self, reference: &Reference) -> Judged<u32> {
        within(self.tables.elements.len() + 1, limits::ELEMENTS)?;
        let (base, rows, columns) = self
            .known(&reference.name)
            .map_or((0, 0, 0), |array| (array.first, array.rows, array.columns.max(1)));
        let entry = |subscript| self.subscript(subscript);
        // "one dimension has columns 1 and second subscript 0, 0, 1"
        let one = SubscriptEntry {
            multiplier: 0,
            cell: 0,
            addend: 1,
        };
        let first = reference.subscripts.first().map_or(one, entry);
        let second = reference.subscripts.get(1).map_or(one, entry);
        self.tables.elements.push(ElementEntry {
            base,
            rows,
            columns,
            subscripts: [first, second],
        });
        Ok(self.tables.elements.len() as u32 - 1)
    }

    /// "a constant has multiplier 0 and cell 0".
    fn subscript(&self, subscript: &Subscript) -> SubscriptEntry {
        match subscript {
            Subscript::Constant(value) => SubscriptEntry {
                multiplier: 0,
                cell: 0,
                addend: *value as i32,
            },
            Subscript::Linear {
                multiplier,
                name,
                addend,
            } => SubscriptEntry {
                multiplier: *multiplier,
                cell: self.cell(name),
                addend: *addend as i32,
            },
        }
    }

    fn exit(&mut self, exit: Exit) -> Judged<u32> {
        within(self.exits.len() + 1, limits::EXITS)?;
        self.exits.push(exit);
        Ok(self.exits.len() as u32 - 1)
    }

    fn code(&mut self, operation: u32, operand: u32) -> Judged<()> {
        self.tables.code.push(pack(operation, operand));
        within(self.code_total(), limits::CODE)
    }

    /// The words there are, and the DOEs still to come.
    fn code_total(&self) -> usize {
        self.tables.code.len() + self.open.len()
    }
}

/// "18: this statement takes a table over its limit".
fn within(total: usize, limit: usize) -> Judged<()> {
    if total > limit {
        Err(18)
    } else {
        Ok(())
    }
}

/// 0 for a plain name, else the number of subscripts of the array.
fn dimensions(entry: &NameEntry) -> usize {
    match (entry.rows, entry.columns) {
        (0, _) => 0,
        (_, 0) => 1,
        _ => 2,
    }
}
