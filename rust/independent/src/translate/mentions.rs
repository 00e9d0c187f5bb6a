//! The names that a statement mentions.

use crate::reader::{Expression, Factor, Form, Parameter, Reference, Subscript};

/// A name, and how many subscripts it has there; None: plain in a list, where a whole array is right too.
pub type Mention<'f> = (&'f str, Option<usize>);

/// The names in a statement other than DIMENSION, in the order of the text.
pub fn mentions(form: &Form) -> Vec<Mention<'_>> {
    let mut found = Vec::new();
    match form {
        Form::Assign { target, value } => {
            mention_reference(target, &mut found);
            mention_expression(value, &mut found);
        }
        Form::Computed { selector, .. } => found.push((selector.as_str(), Some(0))),
        Form::If { value, .. } => mention_expression(value, &mut found),
        Form::Do(parts) => {
            found.push((parts.variable.as_str(), Some(0)));
            let parameters = [Some(&parts.first), Some(&parts.limit), parts.step.as_ref()];
            for parameter in parameters.into_iter().flatten() {
                if let Parameter::Name(name) = parameter {
                    found.push((name.as_str(), Some(0)));
                }
            }
        }
        Form::Read(transfer) | Form::Print(transfer) => {
            transfer.list.iter().for_each(|item| mention_item(item, &mut found));
        }
        Form::GoTo(_) | Form::Continue | Form::Stop | Form::End | Form::Dimension(_) | Form::Format(_) => {}
    }
    found
}

/// "16 is not for a bare array name there".
fn mention_item<'f>(item: &'f Reference, found: &mut Vec<Mention<'f>>) {
    if item.subscripts.is_empty() {
        found.push((item.name.as_str(), None));
    } else {
        mention_reference(item, found);
    }
}

fn mention_reference<'f>(reference: &'f Reference, found: &mut Vec<Mention<'f>>) {
    found.push((reference.name.as_str(), Some(reference.subscripts.len())));
    for subscript in &reference.subscripts {
        if let Subscript::Linear { name, .. } = subscript {
            found.push((name.as_str(), Some(0)));
        }
    }
}

fn mention_expression<'f>(expression: &'f Expression, found: &mut Vec<Mention<'f>>) {
    let terms = std::iter::once(&expression.first).chain(expression.rest.iter().map(|(_, term)| term));
    for term in terms {
        let factors = std::iter::once(&term.first).chain(term.rest.iter().map(|(_, factor)| factor));
        for factor in factors {
            match factor {
                Factor::Constant(_) => {}
                Factor::Reference(reference) => mention_reference(reference, found),
                Factor::Parenthesis(inner) => mention_expression(inner, found),
            }
        }
    }
}
