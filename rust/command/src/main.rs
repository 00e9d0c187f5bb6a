//! The command `luvinqata`. It reads decks, tables and requests, and leaves all judging to the proved calls.

mod arguments;
mod batch;
mod closed;
mod file;
mod given;
mod hours;
mod input;
mod objects;
mod output;
mod program;
mod run;
mod told;
mod uses;

use std::process::ExitCode;

use clap::{CommandFactory, Parser};

use arguments::{Arguments, Subcommand};
use output::Output;

/// What the exit status says, a sum.
#[derive(Clone, Copy, Default)]
pub struct Status {
    /// 1: digits were lost.
    pub lost: bool,
    /// 2: something was refused, or could not be read or written.
    pub failed: bool,
    /// 4: a run did not reach STOP or END.
    pub stuck: bool,
}

impl Status {
    pub const FAILED: Status = Status {
        lost: false,
        failed: true,
        stuck: false,
    };

    fn sum(self) -> u8 {
        u8::from(self.lost) + 2 * u8::from(self.failed) + 4 * u8::from(self.stuck)
    }
}

/// The status, or why the command cannot go on.
pub type Outcome = Result<Status, String>;

fn main() -> ExitCode {
    let mut out = Output::new();
    let mut status = match Arguments::try_parse() {
        Ok(arguments) => obey(arguments.subcommand, &mut out).unwrap_or_else(|message| {
            out.fail(&message);
            Status::FAILED
        }),
        Err(asked) => {
            out.answer(&asked);
            Status {
                failed: asked.use_stderr(),
                ..Status::default()
            }
        }
    };
    out.flush();
    status.failed |= out.failed;
    ExitCode::from(status.sum())
}

fn obey(subcommand: Subcommand, out: &mut Output) -> Outcome {
    match subcommand {
        Subcommand::Run(options) => run::run(&options, out),
        Subcommand::Compile(options) => run::compile(&options, out),
        Subcommand::Check(options) => objects::check(&options, out),
        Subcommand::Map(options) => objects::map(&options, out),
        Subcommand::Hours(options) => hours::hours(&options, out),
        Subcommand::Batch => batch::batch(out),
        Subcommand::Completions { shell } => {
            let mut script = Vec::new();
            clap_complete::generate(shell, &mut Arguments::command(), "luvinqata", &mut script);
            out.bytes(&script);
            Ok(Status::default())
        }
    }
}
