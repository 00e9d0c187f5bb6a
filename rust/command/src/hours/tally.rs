//! What the hours came to, counted.

use std::collections::BTreeMap;

use luvinqata::{statement, Halt};

use crate::hours::hour::Hour;
use crate::output::Output;
use crate::told::tell_cards;
use crate::Status;

#[derive(Default)]
pub struct Tally {
    done: usize,
    unread: usize,
    differ: usize,
    /// How many hours lost digits first at each statement.
    lost: BTreeMap<u32, usize>,
    /// How many hours stopped at each statement, neither by STOP nor by END.
    stuck: BTreeMap<(u32, Halt), usize>,
}

impl Tally {
    /// Counts an hour, and tells what is to be told of it alone.
    pub fn add(&mut self, hour: &Hour, out: &mut Output) {
        let end = match &hour.end {
            Ok(end) => end,
            Err(words) => {
                self.unread += 1;
                return out.say(format_args!("line {}: {words}", hour.line));
            }
        };
        self.done += 1;
        if end.loss > 0 {
            *self.lost.entry(end.loss).or_default() += 1;
        }
        if !end.halt.is_end() {
            *self.stuck.entry((end.at, end.halt)).or_default() += 1;
        }
        if let Some(words) = &end.differs {
            self.differ += 1;
            out.say(format_args!("line {}: {words}", hour.line));
        }
    }

    pub fn status(&self) -> Status {
        Status {
            lost: !self.lost.is_empty(),
            failed: self.unread > 0,
            stuck: !self.stuck.is_empty(),
        }
    }

    /// All counts, then each statement that lost digits or where runs stopped, with its cards.
    pub fn tell(&self, deck: &[u8], compare: Option<u32>, out: &mut Output) {
        let (done, unread) = (self.done, self.unread);
        let (lost, stuck): (usize, usize) = (self.lost.values().sum(), self.stuck.values().sum());
        let mut words = format!("{done} hours done, {lost} lost digits, {unread} could not be read");
        if stuck > 0 {
            words += &format!(", {stuck} did not reach STOP or END");
        }
        if let Some(digits) = compare {
            words += &format!(", {} differ with {digits} digits", self.differ);
        }
        out.say(words);
        for (sequence, hours) in &self.lost {
            out.say(format_args!(
                "digits were lost in {hours}, first at statement {sequence}:"
            ));
            tell_cards(&statement(deck, *sequence), out);
        }
        for ((sequence, halt), hours) in &self.stuck {
            out.say(format_args!(
                "{hours} stopped by halt {halt}: {}, at statement {sequence}:",
                halt.words()
            ));
            tell_cards(&statement(deck, *sequence), out);
        }
    }
}
