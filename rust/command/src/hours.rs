//! `hours`: a deck run once for each row of a table.

mod chart;
mod columns;
mod fields;
mod hour;
mod rows;
mod table;
mod tally;
mod written;

use std::io::Read;
use std::thread;

use luvinqata::{Program, Store};

use crate::arguments::Hours;
use crate::output::Output;
use crate::told::tell_refusal;
use crate::{given, input, Outcome};
use columns::Columns;
use fields::Fields;
use hour::{Hour, Machine, Worker};
use rows::{Row, Rows};
use table::Table;
use written::Written;

/// How many rows a thread has at a time.
const SHARE: usize = 512;

pub fn hours(options: &Hours, out: &mut Output) -> Outcome {
    out.quiet = options.quiet;
    let is_standard_input = |path: &&std::path::PathBuf| path.as_os_str() == "-";
    if [&options.deck.deck, &options.table].iter().all(is_standard_input) {
        return Err("the deck and the table cannot both be standard input".to_string());
    }
    let deck = input::deck(&options.deck, out)?;
    let compile = |digits| Program::compile(digits, &deck);
    let programs = compile(options.deck.digits).and_then(|program| {
        let other = options.compare.map(compile).transpose()?;
        Ok((program, other))
    });
    match programs {
        Ok((program, other)) => run_table(options, &deck, &program, other.as_ref(), out),
        Err(refusal) => Ok(tell_refusal(&refusal, &deck, out)),
    }
}

fn run_table(options: &Hours, deck: &[u8], program: &Program, other: Option<&Program>, out: &mut Output) -> Outcome {
    let named = |words| format!("{}: {words}", options.table.display());
    let separator = options.separator.byte();
    let mut rows = Rows::new(input::open(&options.table)?, separator).map_err(named)?;
    let header = rows.header().map_err(named)?;
    let store = Store::new(program.object()).expect("a compiled object passes the check");
    let set = given::cells(&options.running.set, &store, program.digits())?;
    let columns = Columns::of(&header, &mut Fields::new(separator), &store).map_err(named)?;
    columns.tell_copied(&store, out);
    columns.judge(program, &store, &set).map_err(named)?;
    let mut table = Table::whole(&columns, &store, separator, options.json);
    let mut written = Written::new(options, &table, out)?;
    let only = options.only.as_ref().map(|names| given::values(names, &store));
    table.choose(&columns, options.keep_inputs, only.transpose()?.as_deref())?;
    let machine = |program| Machine::new(program, &set, options.running.steps);
    let worker = |_| Worker {
        fields: Fields::new(separator),
        columns: &columns,
        table: &table,
        machine: machine(program),
        other: other.map(machine),
    };
    let trouble = written.put(&table.header()).and_then(|()| {
        let workers = (0..threads(options)).map(worker).collect();
        run_rows(rows, workers, &mut written)?.map_or(Ok(()), |words| Err(named(words)))
    });
    Ok(written.finish(deck, options.compare, trouble))
}

fn threads(options: &Hours) -> usize {
    let cores = || thread::available_parallelism().map_or(1, usize::from);
    options.threads.map_or_else(cores, usize::from)
}

/// Runs block after block. Says why there was no reading on, and fails where there is no writing on.
fn run_rows(
    mut rows: Rows<impl Read>,
    mut workers: Vec<Worker>,
    written: &mut Written,
) -> Result<Option<String>, String> {
    loop {
        let (block, trouble) = rows.block(SHARE * workers.len());
        for hour in done(&block, &mut workers) {
            if !written.add(&hour)? {
                return Ok(None);
            }
        }
        written.show_progress(rows.bytes);
        if block.is_empty() || trouble.is_some() {
            return Ok(trouble);
        }
    }
}

/// The hours of some rows, in their order, shared out to threads.
fn done(rows: &[Row], workers: &mut [Worker]) -> Vec<Hour> {
    let share = rows.len().div_ceil(workers.len()).max(1);
    thread::scope(|scope| {
        let mut threads = Vec::new();
        for (rows, worker) in rows.chunks(share).zip(workers) {
            threads.push(scope.spawn(move || rows.iter().map(|row| worker.hour(row)).collect::<Vec<Hour>>()));
        }
        let hours = threads.into_iter().map(|thread| thread.join().expect("hours are run"));
        hours.flatten().collect()
    })
}
