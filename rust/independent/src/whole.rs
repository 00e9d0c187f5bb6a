//! The deck as a whole: refusals 20 to 25, "by number, lowest sequence number first".

use crate::cards::{Sequence, StatementNumber};
use crate::compile::Statement;
use crate::format::has_number;
use crate::limits::DO_DEPTH;
use crate::reader::{Do, Form, Transfer};
use crate::refusal::Refusal;

/// A DO and where its last statement stands.
struct Range<'d> {
    sequence: Sequence,
    last: Sequence,
    parts: &'d Do,
}

impl Range<'_> {
    /// "a DO's range (after the DO through its last)"
    fn holds(&self, sequence: Sequence) -> bool {
        self.sequence < sequence && sequence <= self.last
    }
}

pub fn judge_whole(statements: &[Statement]) -> Result<(), Refusal> {
    end_stands_last(statements)?;
    numbers_defined_once(statements)?;
    numbers_used_are_right(statements)?;
    let ranges = ranges(statements);
    refuse_first(23, ranges.iter().map(|r| r.sequence), |sequence| {
        range_wrong(statements, &ranges, sequence)
    })?;
    let sequences = || statements.iter().map(|s| s.sequence);
    refuse_first(24, sequences(), |sequence| jumps_in(statements, &ranges, sequence))?;
    refuse_first(25, sequences(), |sequence| sets_variable(statements, &ranges, sequence))
}

/// Refuses at the lowest sequence number that is wrong.
fn refuse_first(
    number: u32,
    mut sequences: impl Iterator<Item = Sequence>,
    wrong: impl Fn(Sequence) -> bool,
) -> Result<(), Refusal> {
    match sequences.find(|sequence| wrong(*sequence)) {
        Some(Sequence(place)) => Err(Refusal::at(number, place)),
        None => Ok(()),
    }
}

/// "20: END missing or not last; no statement at all"; the place: "the first early END, else the
/// last statement or 0".
fn end_stands_last(statements: &[Statement]) -> Result<(), Refusal> {
    let Some((last, earlier)) = statements.split_last() else {
        return Err(Refusal::whole(20));
    };
    if let Some(early) = earlier.iter().find(|s| s.form == Form::End) {
        return Err(Refusal::at(20, early.sequence.0));
    }
    if last.form != Form::End {
        return Err(Refusal::at(20, last.sequence.0));
    }
    Ok(())
}

/// "21: number defined twice, or on DIMENSION or END"; the place: "the second".
fn numbers_defined_once(statements: &[Statement]) -> Result<(), Refusal> {
    for (index, statement) in statements.iter().enumerate() {
        let Some(number) = statement.number else { continue };
        let unnumbered = matches!(statement.form, Form::Dimension(_) | Form::End);
        let again = statements[..index].iter().any(|s| s.number == Some(number));
        if unnumbered || again {
            return Err(Refusal::at(21, statement.sequence.0));
        }
    }
    Ok(())
}

/// "22: number used, never defined", "also for a FORMAT's number used as an exit or DO end, another's used as a FORMAT,
/// or a list whose FORMAT has no I"; the place is the user.
fn numbers_used_are_right(statements: &[Statement]) -> Result<(), Refusal> {
    for statement in statements {
        let right = match &statement.form {
            Form::Do(parts) => executable(statements, parts.last),
            Form::Read(transfer) | Form::Print(transfer) => format_right(statements, transfer),
            form => targets(form).iter().all(|number| executable(statements, *number)),
        };
        if !right {
            return Err(Refusal::at(22, statement.sequence.0));
        }
    }
    Ok(())
}

/// Whether a number is defined, and not on a FORMAT.
fn executable(statements: &[Statement], number: StatementNumber) -> bool {
    find(statements, number).is_some_and(|s| !matches!(s.form, Form::Format(_)))
}

fn format_right(statements: &[Statement], transfer: &Transfer) -> bool {
    let named = find(statements, transfer.format).map(|s| &s.form);
    matches!(named, Some(Form::Format(fields)) if transfer.list.is_empty() || has_number(fields))
}

fn find(statements: &[Statement], number: StatementNumber) -> Option<&Statement> {
    statements.iter().find(|s| s.number == Some(number))
}

/// The numbers a jump may go to.
fn targets(form: &Form) -> Vec<StatementNumber> {
    match form {
        Form::GoTo(number) => vec![*number],
        Form::Computed { exits, .. } => exits.clone(),
        Form::If { exits, .. } => exits.to_vec(),
        _ => Vec::new(),
    }
}

fn ranges(statements: &[Statement]) -> Vec<Range<'_>> {
    let mut ranges = Vec::new();
    for statement in statements {
        if let Form::Do(parts) = &statement.form {
            if let Some(last) = find(statements, parts.last) {
                ranges.push(Range {
                    sequence: statement.sequence,
                    last: last.sequence,
                    parts,
                });
            }
        }
    }
    ranges
}

/// "23: DO's last statement not after it, or a GO TO, IF, DO or STOP; ranges cross; over 8
/// deep"; the place: "the DO, the later of two".
fn range_wrong(statements: &[Statement], ranges: &[Range], sequence: Sequence) -> bool {
    let Some(range) = ranges.iter().find(|r| r.sequence == sequence) else {
        return false;
    };
    let last_wrong = statements.iter().filter(|s| s.sequence == range.last).any(|s| {
        matches!(
            s.form,
            Form::GoTo(_) | Form::Computed { .. } | Form::If { .. } | Form::Do(_) | Form::Stop
        )
    });
    let around: Vec<&Range> = ranges.iter().filter(|r| r.holds(sequence)).collect();
    let crosses = around.iter().any(|r| r.last < range.last);
    range.last <= sequence || last_wrong || crosses || around.len() + 1 > DO_DEPTH
}

/// "24: a jump into a DO's range from outside"; the place is the jump.
fn jumps_in(statements: &[Statement], ranges: &[Range], sequence: Sequence) -> bool {
    statements
        .iter()
        .filter(|s| s.sequence == sequence)
        .flat_map(|s| targets(&s.form))
        .filter_map(|number| find(statements, number))
        .any(|target| ranges.iter().any(|r| r.holds(target.sequence) && !r.holds(sequence)))
}

/// "25: DO's variable set, or taken by another DO, in its range"; the place: "the setter".
fn sets_variable(statements: &[Statement], ranges: &[Range], sequence: Sequence) -> bool {
    statements.iter().filter(|s| s.sequence == sequence).any(|statement| {
        let sets = |variable: &str| match &statement.form {
            Form::Assign { target, .. } => target.is_plain(variable),
            Form::Do(parts) => parts.variable == variable,
            Form::Read(transfer) => transfer.list.iter().any(|item| item.is_plain(variable)),
            _ => false,
        };
        ranges.iter().any(|r| r.holds(sequence) && sets(&r.parts.variable))
    })
}
