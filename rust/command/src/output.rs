//! Standard output and standard error.

use std::fmt::Display;
use std::io::{self, BufWriter, ErrorKind, IsTerminal, StdoutLock, Write};

use indicatif::{ProgressBar, ProgressStyle};

use crate::closed;

pub struct Output {
    out: BufWriter<StdoutLock<'static>>,
    /// Something could not be written. It was told once, unless the reader has closed the pipe.
    pub failed: bool,
    /// Only failures are told.
    pub quiet: bool,
    progress: ProgressBar,
}

impl Output {
    pub fn new() -> Output {
        Output {
            out: BufWriter::new(io::stdout().lock()),
            failed: false,
            quiet: false,
            progress: ProgressBar::hidden(),
        }
    }

    pub fn line(&mut self, line: impl Display) {
        self.bytes(format!("{line}\n").as_bytes());
    }

    pub fn bytes(&mut self, bytes: &[u8]) {
        let written = match closed::standard_output() {
            true => Err(io::Error::other("it is closed")),
            false => self.out.write_all(bytes),
        };
        self.note(written);
    }

    pub fn flush(&mut self) {
        let written = self.out.flush();
        self.note(written);
    }

    /// A line on standard error, after all that was written before it.
    pub fn say(&mut self, line: impl Display) {
        self.flush();
        if !self.quiet {
            self.tell(line);
        }
    }

    /// Why the command cannot go on.
    pub fn fail(&mut self, message: &str) {
        self.flush();
        self.tell(format_args!("luvinqata: {message}"));
    }

    /// Help on standard output, a wrong use on standard error.
    pub fn answer(&mut self, asked: &clap::Error) {
        match asked.use_stderr() {
            true => self.tell(asked.to_string().trim_end()),
            false => self.bytes(asked.to_string().as_bytes()),
        }
    }

    /// Progress through so many bytes, 0 if that is not known, where standard error is a terminal and the written table is
    /// not on it too.
    pub fn begin_progress(&mut self, bytes: u64, table_on_screen: bool) {
        if !table_on_screen && !self.quiet && io::stderr().is_terminal() {
            let template = match bytes {
                0 => "{bytes} {elapsed}",
                _ => "{bytes} of {total_bytes} {wide_bar} {eta}",
            };
            let style = ProgressStyle::with_template(template).expect("a template");
            self.progress = ProgressBar::new(bytes).with_style(style);
        }
    }

    pub fn show_progress(&self, bytes: u64) {
        self.progress.set_position(bytes);
    }

    pub fn end_progress(&self) {
        self.progress.finish_and_clear();
    }

    /// If standard error cannot be written, there is nobody to tell. A terminal obeys nothing that is told, whatever the
    /// names of files or the cards hold.
    fn tell(&mut self, line: impl Display) {
        let told = |c: char| match c.is_control() && c != '\n' {
            true => c.escape_default().to_string(),
            false => c.to_string(),
        };
        let line: String = line.to_string().chars().map(told).collect();
        self.progress.suspend(|| drop(writeln!(io::stderr(), "{line}")));
    }

    fn note(&mut self, written: io::Result<()>) {
        let Err(error) = written else { return };
        if !self.failed && error.kind() != ErrorKind::BrokenPipe {
            self.tell(format_args!("luvinqata: standard output: {error}"));
        }
        self.failed = true;
    }
}
