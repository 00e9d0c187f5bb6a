//! Files that are read, no further than what they are for can be long, and decks in either of their two forms.

use std::fs::File;
use std::io::{stdin, Read};
use std::path::Path;

use luvinqata::CARD;

use crate::arguments;
use crate::output::Output;
use crate::told::shown;

/// No deck and no object is as long: 512 cards as text take 41,984 bytes, an object takes 68,056.
const LONGEST: usize = 131_072;
/// The columns that are read.
const READ: usize = 72;

/// The stream of a file; `-` is standard input.
pub fn open(path: &Path) -> Result<Box<dyn Read>, String> {
    match path.to_str() {
        Some("-") => Ok(Box::new(stdin().lock())),
        _ => match File::open(path) {
            Ok(file) => Ok(Box::new(file)),
            Err(error) => Err(failed(path, &error)),
        },
    }
}

fn failed(path: &Path, error: &std::io::Error) -> String {
    format!("{}: {error}", path.display())
}

fn read(path: &Path, what: &str) -> Result<Vec<u8>, String> {
    let mut bytes = Vec::new();
    let read = open(path)?.take(LONGEST as u64 + 1).read_to_end(&mut bytes);
    read.map_err(|error| failed(path, &error))?;
    match bytes.len() > LONGEST {
        true => Err(format!(
            "{}: over {LONGEST} bytes, longer than any {what}",
            path.display()
        )),
        false => Ok(bytes),
    }
}

/// The bytes of an object. A deck is told as that.
pub fn object(path: &Path) -> Result<Vec<u8>, String> {
    let bytes = read(path, "object")?;
    let is_text = !bytes.is_empty() && bytes.iter().all(|byte| matches!(byte, b' '..=b'~' | b'\n' | b'\r'));
    match is_text {
        true => Err(format!(
            "{}: it is text, as a deck is, and no object: 'luvinqata compile' makes one of a deck",
            path.display()
        )),
        false => Ok(bytes),
    }
}

/// A deck as cards. An object is told as that, and so is what stands past the columns that are read.
pub fn deck(options: &arguments::Deck, out: &mut Output) -> Result<Vec<u8>, String> {
    let path = &options.deck;
    let bytes = read(path, "deck")?;
    // An object begins with its edition, and no deck does so.
    if matches!(bytes[..], [1 | 2, 0, 0, 0, ..]) {
        let words = "it is an object, and no deck: 'luvinqata check' and 'luvinqata map' take objects";
        return Err(format!("{}: {words}", path.display()));
    }
    let looks = bytes.contains(&b'\n') || bytes.len() % CARD != 0;
    let deck = match options.text || looks && !options.cards {
        true => luvinqata::punch(&bytes).map_err(|error| format!("{}: {error}", path.display()))?,
        false => bytes,
    };
    tell_unread(&deck, out);
    Ok(deck)
}

/// Columns 73 to 80 had a card's place in the deck, in digits; anything else may be a statement that runs over.
fn tell_unread(deck: &[u8], out: &mut Output) {
    let unread = |card: &&[u8]| {
        let is_place = |byte: &u8| byte.is_ascii_digit() || *byte == b' ';
        card[0] != b'C' && !card[READ..].iter().all(is_place)
    };
    let mut cards = deck.chunks_exact(CARD).enumerate().filter(|(_, card)| unread(card));
    let Some((index, card)) = cards.next() else { return };
    let text = String::from_utf8_lossy(&card[READ..]);
    let words = format!(
        "card {}: '{}' past column {READ} is not read",
        index + 1,
        shown(text.trim())
    );
    match cards.count() {
        0 => out.say(words),
        more => out.say(format_args!("{words}, nor is what stands there on {more} more")),
    }
}
