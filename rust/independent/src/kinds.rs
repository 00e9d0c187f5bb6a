//! The kinds of fields and list items that a deck's READs and PRINTs have, for tests to count.

use std::collections::BTreeSet;

use crate::compile::{Deck, Statement};
use crate::format::Field;
use crate::reader::{Form, Transfer};

/// Every kind.
pub const KINDS: [&str; 15] = [
    "I",
    "I repeated",
    "I wider than a line",
    "X",
    "H",
    "H with a blank",
    "H with a dollar",
    "slash",
    "group",
    "group repeated",
    "group in a group",
    "a name",
    "an element",
    "a whole array",
    "no list",
];

fn kinds_of_fields(list: &[Field], inside: bool, found: &mut BTreeSet<&'static str>) {
    let mut met = |holds: bool, kind| found.extend(holds.then_some(kind));
    for field in list {
        match field {
            Field::Number { repeat, width } => {
                met(true, "I");
                met(*repeat > 1, "I repeated");
                met(*width > 132, "I wider than a line");
            }
            Field::Blanks(_) => met(true, "X"),
            Field::Text(text) => {
                met(true, "H");
                met(text.contains(&b' '), "H with a blank");
                met(text.contains(&b'$'), "H with a dollar");
            }
            Field::Slash => met(true, "slash"),
            Field::Group { repeat, .. } => {
                met(true, "group");
                met(*repeat > 1, "group repeated");
                met(inside, "group in a group");
            }
        }
    }
    for field in list {
        if let Field::Group { list, .. } = field {
            kinds_of_fields(list, true, found);
        }
    }
}

fn kinds_of_list(transfer: &Transfer, arrays: &BTreeSet<&str>, found: &mut BTreeSet<&'static str>) {
    if transfer.list.is_empty() {
        found.insert("no list");
    }
    for item in &transfer.list {
        found.insert(match item.subscripts.len() {
            0 if arrays.contains(item.name.as_str()) => "a whole array",
            0 => "a name",
            _ => "an element",
        });
    }
}

/// What a deck's READs, or its PRINTs, have.
pub fn kinds(deck: &Deck, read: bool) -> BTreeSet<&'static str> {
    let statements = deck.statements();
    let declared = |statement: &'_ Statement| match &statement.form {
        Form::Dimension(arrays) => arrays.iter().map(|array| array.name.clone()).collect(),
        _ => Vec::new(),
    };
    let arrays: Vec<String> = statements.iter().flat_map(declared).collect();
    let arrays = arrays.iter().map(String::as_str).collect();
    let mut found = BTreeSet::new();
    for statement in statements {
        let transfer = match &statement.form {
            Form::Read(transfer) if read => transfer,
            Form::Print(transfer) if !read => transfer,
            _ => continue,
        };
        kinds_of_list(transfer, &arrays, &mut found);
        let format = statements.iter().find(|s| s.number == Some(transfer.format));
        if let Some(Form::Format(list)) = format.map(|s| &s.form) {
            kinds_of_fields(list, false, &mut found);
        }
    }
    found
}
