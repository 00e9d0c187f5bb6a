//! Where hours go to when they are done: the table, the picture, the counts.

use std::io::IsTerminal;
use std::path::Path;

use crate::arguments::Hours;
use crate::file::Beside;
use crate::hours::chart::Chart;
use crate::hours::hour::Hour;
use crate::hours::table::Table;
use crate::hours::tally::Tally;
use crate::output::Output;
use crate::Status;

pub struct Written<'o> {
    file: Option<Beside>,
    chart: Option<Chart>,
    tally: Tally,
    out: &'o mut Output,
}

impl Written<'_> {
    /// The chart may be of any column, whether it is written or not.
    pub fn new<'o>(options: &Hours, table: &Table, out: &'o mut Output) -> Result<Written<'o>, String> {
        let mut others: Vec<&Path> = vec![&options.deck.deck, &options.table];
        let file = options.output.as_ref().map(|place| Beside::new(place, &others));
        let file = file.transpose()?;
        others.extend(options.output.as_deref());
        let chart = options.chart.as_ref().map(|asked| Chart::new(asked, table, &others));
        let chart = chart.transpose()?;
        let on_screen = file.is_none() && std::io::stdout().is_terminal();
        let length = std::fs::metadata(&options.table).map_or(0, |data| data.len());
        out.begin_progress(length, on_screen);
        Ok(Written {
            file,
            chart,
            tally: Tally::default(),
            out,
        })
    }

    pub fn put(&mut self, bytes: &[u8]) -> Result<(), String> {
        match &mut self.file {
            Some(file) => file.write(bytes)?,
            None => self.out.bytes(bytes),
        }
        Ok(())
    }

    /// Whether there is any use in going on.
    pub fn add(&mut self, hour: &Hour) -> Result<bool, String> {
        self.put(&hour.written)?;
        self.tally.add(hour, self.out);
        if let Some(chart) = &mut self.chart {
            chart.add(hour);
        }
        Ok(!self.out.failed)
    }

    pub fn show_progress(&self, bytes: u64) {
        self.out.show_progress(bytes);
    }

    /// Files take their places if all went well.
    pub fn finish(self, deck: &[u8], compare: Option<u32>, trouble: Result<(), String>) -> Status {
        self.out.end_progress();
        let mut status = self.tally.status();
        if self.out.failed {
            return status;
        }
        let finished = trouble
            .and_then(|()| self.file.map_or(Ok(()), Beside::finish))
            .and_then(|()| self.chart.map_or(Ok(()), Chart::finish));
        if let Err(words) = finished {
            self.out.fail(&words);
            status.failed = true;
        }
        self.tally.tell(deck, compare, self.out);
        status
    }
}
