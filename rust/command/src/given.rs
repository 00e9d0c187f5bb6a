//! Values that are given by name: `--set NAME=VALUE`, and a table's columns.

use luvinqata::Store;

use crate::told::shown;

/// What a value starts from.
#[derive(Clone, Debug)]
pub struct Given {
    pub name: String,
    pub value: i64,
}

/// `NAME=VALUE`.
pub fn given(text: &str) -> Result<Given, String> {
    let (name, value) = text.split_once('=').ok_or("it is not NAME=VALUE")?;
    let (name, value) = (name.trim().to_string(), whole(value.trim())?);
    Ok(Given { name, value })
}

/// A whole number, or why a field is none.
pub fn whole(field: &str) -> Result<i64, String> {
    let digits = field.strip_prefix('-').unwrap_or(field);
    if digits.is_empty() || !digits.bytes().all(|byte| byte.is_ascii_digit()) {
        return Err(format!("'{}' is no whole number", shown(field)));
    }
    field.parse().map_err(|_| format!("'{}' is too large", shown(field)))
}

/// Whether a value has more digits than a deck's numbers.
pub fn is_over(value: i64, digits: u32) -> bool {
    value.unsigned_abs() >= 10u64.pow(digits)
}

/// The cells that `--set` gives, with their values.
pub fn cells(set: &[Given], store: &Store, digits: u32) -> Result<Vec<(usize, i64)>, String> {
    let mut cells = Vec::new();
    for Given { name, value } in set {
        let cell = store.cell(name).ok_or_else(|| unknown(name, store))?;
        if cells.iter().any(|(other, _)| *other == cell) {
            return Err(format!("--set gives {name} twice"));
        }
        if is_over(*value, digits) {
            return Err(format!("--set {name}={value}: over {digits} digits"));
        }
        cells.push((cell, *value));
    }
    Ok(cells)
}

fn unknown(name: &str, store: &Store) -> String {
    let name = shown(name);
    match like(&name, store) {
        Some(value) => format!("--set {name}: no value of the deck; {value} is one"),
        None => format!("--set {name}: no value of the deck, which has {}", has(store)),
    }
}

/// The value of the deck whose name differs only in case and blanks.
pub fn like(name: &str, store: &Store) -> Option<String> {
    let name: String = name.chars().filter(|c| !c.is_whitespace()).collect();
    let name = name.to_uppercase();
    store.cell(&name).map(|_| name)
}

/// The names of a deck, an array's by its last element.
pub fn has(store: &Store) -> String {
    let last = |name: &luvinqata::Name| match (name.rows, name.columns) {
        (0, _) => name.text.clone(),
        (rows, 0) => format!("{}({rows})", name.text),
        (rows, columns) => format!("{}({rows},{columns})", name.text),
    };
    store.names().iter().map(last).collect::<Vec<String>>().join(", ")
}

/// Names parted by commas that are not in parentheses.
pub fn names(text: &str) -> Vec<String> {
    let (mut names, mut inside) = (vec![String::new()], false);
    for c in text.chars().filter(|c| *c != ' ') {
        match c {
            ',' if !inside => names.push(String::new()),
            _ => {
                inside = c == '(' || inside && c != ')';
                names.last_mut().expect("one at least").push(c);
            }
        }
    }
    names
}

/// Which of a deck's values some names are; an array's name is all of its elements.
pub fn values(text: &str, store: &Store) -> Result<Vec<usize>, String> {
    let mut values = Vec::new();
    for name in names(text) {
        let is = |value: &str| value == name || value.split_once('(').is_some_and(|(array, _)| array == name);
        let before = values.len();
        values.extend(
            store
                .iter()
                .enumerate()
                .filter(|(_, (value, _))| is(value))
                .map(|(index, _)| index),
        );
        if values.len() == before {
            return Err(format!(
                "--only {}: no value of the deck, which has {}",
                shown(&name),
                has(store)
            ));
        }
    }
    Ok(values)
}
