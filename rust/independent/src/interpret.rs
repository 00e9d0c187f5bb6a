//! The meaning of a deck (01 "Meaning"), "defined on its statements and named values, with no
//! object, instruction or machine in it".

mod transfers;

use std::collections::BTreeMap;

use crate::cards::{Sequence, StatementNumber};
use crate::compile::{Deck, Statement};
use crate::lent::{Lent, Trouble};
use crate::number::keep;
use crate::reader::{Array, Do, Expression, Factor, Form, Name, Parameter, Product, Reference, Subscript, Sum, Term};

/// The values by name: one for a plain name, an array's by columns.
pub type Values = BTreeMap<Name, Vec<i64>>;

/// What becomes of a deck.
#[derive(Clone, Debug, PartialEq, Eq)]
pub struct Outcome {
    /// 0 STOP, 1 END, 2 budget used, 3 division by zero, 4 subscript, 5 computed exit,
    /// 6 DO parameter, 9 cards or lines run out, 10 field.
    pub halt: u32,
    /// Why a READ or PRINT halted, if one did.
    pub trouble: Option<Trouble>,
    pub values: Values,
    /// The sequence number of the first statement that lost digits, or 0.
    pub first_loss: u32,
    /// Statements carried out, one that halts among them; a DIMENSION or FORMAT is not.
    pub statements: u64,
}

/// The meaning of a deck to which nothing is lent.
pub fn interpret(deck: &Deck, start: &Values, budget: u64) -> Outcome {
    interpret_lent(deck, start, budget, &mut Lent::nothing())
}

/// Carries out a deck's statements from the given values (0 where none is given), at most
/// `budget` of them, with the cards and lines lent.
pub fn interpret_lent(deck: &Deck, start: &Values, budget: u64, lent: &mut Lent) -> Outcome {
    let mut meaning = Meaning {
        deck,
        lent,
        trouble: None,
        values: start.clone(),
        shapes: BTreeMap::new(),
        turns: BTreeMap::new(),
        at: 0,
        first_loss: 0,
    };
    meaning.lay_out();
    let mut statements = 0;
    let halt = loop {
        meaning.pass_over();
        if statements == budget {
            break 2;
        }
        statements += 1;
        if let Err(halt) = meaning.carry_out() {
            break halt;
        }
    };
    Outcome {
        halt,
        trouble: meaning.trouble,
        values: meaning.values,
        first_loss: meaning.first_loss,
        statements,
    }
}

struct Meaning<'d, 'l, 'c> {
    deck: &'d Deck,
    lent: &'l mut Lent<'c>,
    trouble: Option<Trouble>,
    values: Values,
    /// Rows and columns of each array.
    shapes: BTreeMap<Name, (u32, u32)>,
    /// The m2 and m3 that each DO read when it was last begun.
    turns: BTreeMap<Sequence, (i64, i64)>,
    /// The statement to be carried out, from 0.
    at: usize,
    first_loss: u32,
}

/// A value, or the halt met in working it out.
type Worked<T> = Result<T, u32>;

impl<'d> Meaning<'d, '_, '_> {
    /// "FORMAT is passed over as DIMENSION is, and does not count".
    fn pass_over(&mut self) {
        let declares = |statement: &Statement| matches!(statement.form, Form::Dimension(_) | Form::Format(_));
        while self.deck.statements().get(self.at).is_some_and(declares) {
            self.at += 1;
        }
    }

    /// Gives every array its elements.
    fn lay_out(&mut self) {
        for statement in self.deck.statements() {
            if let Form::Dimension(arrays) = &statement.form {
                for Array { name, rows, columns } in arrays {
                    let columns = columns.unwrap_or(1);
                    self.shapes.insert(name.clone(), (*rows, columns));
                    self.values
                        .entry(name.clone())
                        .or_default()
                        .resize((rows * columns) as usize, 0);
                }
            }
        }
    }

    /// One statement, and if it is a last statement the turns that end with it.
    fn carry_out(&mut self) -> Worked<()> {
        let statement = self.deck.statements().get(self.at).ok_or(1u32)?;
        match &statement.form {
            Form::Assign { target, value } => self.assign(target, value)?,
            Form::GoTo(number) => return self.go_to(*number),
            Form::Computed { exits, selector } => return self.go_to_computed(exits, selector),
            Form::If { value, exits } => return self.branch(value, exits),
            Form::Do(parts) => self.begin(statement.sequence, parts)?,
            Form::Stop => return Err(0),
            Form::End => return Err(1),
            Form::Read(transfer) => self.read(transfer)?,
            Form::Print(transfer) => self.print(transfer)?,
            Form::Continue | Form::Dimension(_) | Form::Format(_) => {}
        }
        self.end_turns(statement);
        Ok(())
    }

    /// "Assignment works the value, then the target's subscripts."
    fn assign(&mut self, target: &Reference, value: &Expression) -> Worked<()> {
        let value = self.expression(value)?;
        let index = self.index(target)?;
        *self.place(&target.name, index) = value;
        Ok(())
    }

    fn go_to(&mut self, number: StatementNumber) -> Worked<()> {
        let statements = self.deck.statements();
        self.at = statements
            .iter()
            .position(|s| s.number == Some(number))
            .unwrap_or(statements.len());
        Ok(())
    }

    fn go_to_computed(&mut self, exits: &[StatementNumber], selector: &str) -> Worked<()> {
        let value = *self.place(selector, 0);
        let chosen = usize::try_from(value)
            .ok()
            .and_then(|v| v.checked_sub(1))
            .and_then(|v| exits.get(v));
        self.go_to(*chosen.ok_or(5u32)?)
    }

    fn branch(&mut self, value: &Expression, exits: &[StatementNumber; 3]) -> Worked<()> {
        let value = self.expression(value)?;
        self.go_to(match value.signum() {
            -1 => exits[0],
            0 => exits[1],
            _ => exits[2],
        })
    }

    /// "DO reads its parameters at the DO; all must exceed 0."
    fn begin(&mut self, sequence: Sequence, parts: &Do) -> Worked<()> {
        let first = self.parameter(&parts.first);
        let limit = self.parameter(&parts.limit);
        let step = parts.step.as_ref().map_or(1, |step| self.parameter(step));
        if first <= 0 || limit <= 0 || step <= 0 {
            return Err(6);
        }
        *self.place(&parts.variable, 0) = first;
        self.turns.insert(sequence, (limit, step));
        Ok(())
    }

    /// "Several DOs may share a last statement, innermost first."
    fn end_turns(&mut self, last: &'d Statement) {
        self.at += 1;
        let Some(number) = last.number else { return };
        let statements: &'d [Statement] = self.deck.statements();
        for (index, statement) in statements.iter().enumerate().rev() {
            if let Form::Do(parts) = &statement.form {
                if parts.last == number && self.takes_another(statement.sequence, &parts.variable) {
                    self.at = index + 1;
                    return;
                }
            }
        }
    }

    /// "At the body's end the exact sum i+m3 is compared with m2: not greater, i takes it and
    /// the body repeats; greater, i stays."
    fn takes_another(&mut self, sequence: Sequence, variable: &str) -> bool {
        let Some((limit, step)) = self.turns.get(&sequence).copied() else {
            return false;
        };
        let variable = self.place(variable, 0);
        let sum = *variable + step;
        if sum > limit {
            return false;
        }
        *variable = sum;
        true
    }

    fn parameter(&mut self, parameter: &Parameter) -> i64 {
        match parameter {
            Parameter::Constant(value) => i64::from(*value),
            Parameter::Name(name) => *self.place(name, 0),
        }
    }

    /// "Operands and joining go left to right; a leading sign applies to the first term."
    fn expression(&mut self, expression: &Expression) -> Worked<i64> {
        let mut value = self.term(&expression.first)?;
        if expression.minus {
            value = -value;
        }
        for (joint, term) in &expression.rest {
            let (lower, upper) = (i128::from(value), i128::from(self.term(term)?));
            value = self.keep(match joint {
                Sum::Plus => lower + upper,
                Sum::Minus => lower - upper,
            });
        }
        Ok(value)
    }

    fn term(&mut self, term: &Term) -> Worked<i64> {
        let mut value = self.factor(&term.first)?;
        for (joint, factor) in &term.rest {
            let factor = self.factor(factor)?;
            value = match joint {
                Product::Times => self.keep(i128::from(value) * i128::from(factor)),
                Product::Over if factor == 0 => return Err(3),
                Product::Over => value / factor,
            };
        }
        Ok(value)
    }

    fn factor(&mut self, factor: &Factor) -> Worked<i64> {
        match factor {
            Factor::Constant(value) => Ok(i64::from(*value)),
            Factor::Parenthesis(inner) => self.expression(inner),
            Factor::Reference(reference) => {
                let index = self.index(reference)?;
                Ok(*self.place(&reference.name, index))
            }
        }
    }

    /// "A result of + - * keeps its sign and its k low decimal digits"; the first loss is kept.
    fn keep(&mut self, exact: i128) -> i64 {
        let (value, dropped) = keep(self.deck.k(), exact);
        if dropped && self.first_loss == 0 {
            self.first_loss = self.at as u32 + 1;
        }
        value
    }

    /// "a subscript is right when its value is from 1 to its dimension, first subscript tested
    /// first"; "Elements lie by columns".
    fn index(&mut self, reference: &Reference) -> Worked<usize> {
        let (rows, columns) = self.shapes.get(&reference.name).copied().unwrap_or((1, 1));
        let mut index = 0;
        let dimensions = [(rows, 1), (columns, rows)];
        for (subscript, (dimension, stride)) in reference.subscripts.iter().zip(dimensions) {
            let value = self.subscript(subscript);
            if value < 1 || value > i128::from(dimension) {
                return Err(4);
            }
            index += (value as usize - 1) * stride as usize;
        }
        Ok(index)
    }

    /// "Subscripts are worked out exactly".
    fn subscript(&mut self, subscript: &Subscript) -> i128 {
        match subscript {
            Subscript::Constant(value) => i128::from(*value),
            Subscript::Linear {
                multiplier,
                name,
                addend,
            } => i128::from(*multiplier) * i128::from(*self.place(name, 0)) + i128::from(*addend),
        }
    }

    /// A named value. A name not met before has the value 0.
    fn place(&mut self, name: &str, index: usize) -> &mut i64 {
        if !self.values.contains_key(name) {
            self.values.insert(name.to_string(), Vec::new());
        }
        let values = self.values.get_mut(name).expect("put in just now if it was missing");
        if values.len() <= index {
            values.resize(index + 1, 0);
        }
        &mut values[index]
    }
}
