//! Runs the command, and the proved program.
#![allow(dead_code)]

use std::ffi::OsStr;
use std::fs;
use std::io::Write;
use std::os::unix::fs::PermissionsExt;
use std::path::{Path, PathBuf};
use std::process::{Child, Command, Stdio};

pub const LUVINQATA: &str = env!("CARGO_BIN_EXE_luvinqata");

#[derive(Debug, PartialEq, Eq)]
pub struct Ended {
    pub status: i32,
    pub out: String,
    pub told: String,
}

/// The command with its arguments and its standard input.
pub fn luvinqata<S: AsRef<OsStr>>(arguments: &[S], input: &[u8]) -> Ended {
    run(Path::new(LUVINQATA), arguments, input)
}

/// A program for the archive's machine, with its arguments and its standard input.
pub fn run<S: AsRef<OsStr>>(program: &Path, arguments: &[S], input: &[u8]) -> Ended {
    finish(start(program, arguments, Stdio::piped(), Stdio::piped()), input)
}

/// A program of the archive's machine: elsewhere the emulator that runs this test runs it too.
pub fn command_of(program: &Path) -> Command {
    match std::env::var("CARGO_TARGET_X86_64_UNKNOWN_LINUX_GNU_RUNNER") {
        Ok(runner) => {
            let mut command = Command::new(runner);
            command.arg(program);
            command
        }
        Err(_) => Command::new(program),
    }
}

pub fn start<S: AsRef<OsStr>>(program: &Path, arguments: &[S], out: Stdio, told: Stdio) -> Child {
    let mut command = command_of(program);
    command.args(arguments).stdin(Stdio::piped()).stdout(out).stderr(told);
    command.spawn().expect("the command")
}

/// What it prints and tells of its input, as far as these are pipes.
pub fn finish(mut child: Child, input: &[u8]) -> Ended {
    let mut stdin = child.stdin.take().expect("its standard input");
    let input = input.to_vec();
    // A command that reads nothing closes its end.
    let writer = std::thread::spawn(move || drop(stdin.write_all(&input)));
    let output = child.wait_with_output().expect("its end");
    writer.join().expect("its input");
    Ended {
        status: output.status.code().expect("a status"),
        out: String::from_utf8(output.stdout).expect("text"),
        told: String::from_utf8(output.stderr).expect("text"),
    }
}

/// A path from the repository's top.
pub fn top(path: &str) -> PathBuf {
    Path::new(env!("CARGO_MANIFEST_DIR")).join("../..").join(path)
}

/// A file with these bytes, of a name that no other test uses.
pub fn file(name: &str, bytes: &[u8]) -> PathBuf {
    let path = Path::new(env!("CARGO_TARGET_TMPDIR")).join(name);
    fs::write(&path, bytes).expect("a file for the test");
    path
}

/// A file that can be run.
pub fn script(path: &Path, text: &str) {
    fs::write(path, text).expect("a script");
    fs::set_permissions(path, fs::Permissions::from_mode(0o755)).expect("its rights");
}
