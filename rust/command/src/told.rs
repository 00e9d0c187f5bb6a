//! Words for people: what a run came to, what a refusal is about, and text of others made safe to show.

use luvinqata::{statement, Card, Program, Ran, Refusal, State};

use crate::output::Output;
use crate::Status;

/// The most characters of a field that are shown.
const SHOWN: usize = 40;

/// A text of others for a line of words: cut if it is long, and with control characters told by name.
pub fn shown(text: &str) -> String {
    let told = |c: char| match c {
        '\'' | '"' => c.to_string(),
        _ => c.escape_debug().to_string(),
    };
    let start: String = text.chars().take(SHOWN).map(told).collect();
    match text.chars().nth(SHOWN) {
        Some(_) => format!("{start}..."),
        None => start,
    }
}

/// The first of some names, and how many more there are.
pub fn list(names: &[String], most: usize) -> String {
    match names.len() > most {
        true => format!("{} and {} more", names[..most].join(", "), names.len() - most),
        false => names.join(", "),
    }
}

/// The number, what is wrong and what to do, and the cards as they are punched, with carets under what it is about.
pub fn tell_refusal(refusal: &Refusal, deck: &[u8], out: &mut Output) -> Status {
    let explanation = refusal.explain(deck);
    out.say(format_args!("refused {}: {explanation}", refusal.number()));
    let mut cards = refusal.cards(deck);
    for columns in &explanation.also {
        let statements = (1..).map(|sequence| statement(deck, sequence));
        let mut others = statements.take_while(|cards| !cards.is_empty()).flatten();
        cards.extend(others.find(|card| card.number == columns.card && !cards.contains(card)));
    }
    cards.sort_by_key(|card| card.number);
    for card in cards {
        tell_cards(&[card], out);
        for columns in explanation.at.iter().chain(&explanation.also) {
            if columns.card == card.number {
                out.say(format_args!("         |{}", columns.carets()));
            }
        }
    }
    Status::FAILED
}

/// Where a run stopped that did not reach STOP or END, and where it first lost digits.
pub fn tell_end(ran: &Ran, state: &State, program: &Program, deck: &[u8], out: &mut Output) {
    if !ran.halt.is_end() {
        let sequence = sequence_at(program, state);
        out.say(format_args!(
            "halt {}: {}, at statement {sequence}:",
            ran.halt,
            ran.words()
        ));
        tell_cards(&statement(deck, sequence), out);
    }
    if ran.sequence > 0 {
        out.say(format_args!("digits were lost, first at statement {}:", ran.sequence));
        tell_cards(&statement(deck, ran.sequence), out);
    }
}

/// The sequence number of the statement that a state stands at.
pub fn sequence_at(program: &Program, state: &State) -> u32 {
    program.statement_at(state).map_or(0, |statement| statement.sequence)
}

pub fn tell_cards(cards: &[Card], out: &mut Output) {
    for card in cards {
        out.say(format_args!("card {:3} |{card}", card.number));
    }
}

#[cfg(test)]
mod tests {
    use super::shown;

    #[test]
    fn texts_of_others() {
        assert_eq!(shown("n/a \"5'"), "n/a \"5'");
        assert_eq!(shown("\x1b[2J\r\n\u{202e}\u{9b}"), "\\u{1b}[2J\\r\\n\\u{202e}\\u{9b}");
        assert_eq!(shown(&"x".repeat(40)), "x".repeat(40));
        assert_eq!(shown(&"\t".repeat(41)), format!("{}...", "\\t".repeat(40)));
    }
}
