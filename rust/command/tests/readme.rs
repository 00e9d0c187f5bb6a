//! What the README shows is what its commands print, and every command in README, GUIDE and help can be given.

mod common;

use std::fs::{self, read_dir, read_to_string};
use std::os::unix::fs::PermissionsExt;
use std::path::{Path, PathBuf};
use std::process::Command;

use common::{luvinqata, top, LUVINQATA};

#[test]
fn the_quick_start_prints_what_it_shows() {
    let readme = read_to_string(top("README.md")).expect("the README");
    let blocks: Vec<&str> = readme.split("```\n").skip(1).step_by(2).collect();
    let commands: [&[&str]; 2] = [
        &["run", "examples/gale.txt"],
        &["hours", "examples/gale-hours.txt", "examples/gale-hours.csv"],
    ];
    // The last one shows the end of the tests.
    assert_eq!(blocks.len(), commands.len() + 1);
    for (arguments, block) in commands.iter().zip(blocks) {
        assert!(readme.contains(&format!("    ./luvinqata {}\n", arguments.join(" "))));
        let paths = arguments.iter().skip(1).map(|path| top(path).into_os_string());
        let arguments: Vec<_> = std::iter::once(arguments[0].into()).chain(paths).collect();
        let ended = luvinqata(&arguments, b"");
        // On a terminal the two outputs mix; each keeps its order.
        for printed in [&ended.out, &ended.told] {
            let shown: Vec<&str> = block
                .lines()
                .filter(|line| printed.lines().any(|l| l == *line))
                .collect();
            assert_eq!(shown, printed.lines().collect::<Vec<&str>>());
        }
        assert_eq!(
            block.lines().count(),
            ended.out.lines().count() + ended.told.lines().count()
        );
    }
}

#[test]
fn the_tests_end_as_it_shows() {
    let list = read_to_string(top("crates.txt")).expect("the list of crates");
    let crates = list.lines().filter(|line| line.contains(':') && !line.starts_with('#'));
    let folders = read_dir(top("crates")).expect("the crates").flatten();
    // A crate may have no edits.
    let edits = folders.filter_map(|folder| read_dir(folder.path().join("must-fail")).ok());
    let edits = edits.flatten().flatten();
    let edits = edits.filter(|file| file.path().extension().is_some_and(|end| end == "edit"));
    let last = format!("{} passed, 0 failed", crates.count() + edits.count());
    let readme = read_to_string(top("README.md")).expect("the README");
    assert!(readme.lines().any(|line| line == last), "{last}");
}

/// A folder with the examples, and the command as the launcher's name has it.
fn folder() -> PathBuf {
    let folder = Path::new(env!("CARGO_TARGET_TMPDIR")).join("readme");
    let _ = fs::remove_dir_all(&folder);
    for part in ["examples", "docs"] {
        fs::create_dir_all(folder.join(part)).expect("a folder");
    }
    for example in read_dir(top("examples")).expect("the examples").flatten() {
        fs::copy(example.path(), folder.join("examples").join(example.file_name())).expect("an example");
    }
    let runner = std::env::var("CARGO_TARGET_X86_64_UNKNOWN_LINUX_GNU_RUNNER").unwrap_or_default();
    let command = folder.join("luvinqata");
    fs::write(&command, format!("#!/bin/sh\nexec {runner} {LUVINQATA} \"$@\"\n")).expect("the command");
    fs::set_permissions(&command, fs::Permissions::from_mode(0o755)).expect("its rights");
    folder
}

/// Runs a line of a document; it may lose digits, but it is no wrong use.
fn obeyed(line: &str, folder: &Path) {
    let path = format!("{}:{}", folder.display(), std::env::var("PATH").expect("a path"));
    let output = Command::new("sh")
        .args(["-c", line])
        .current_dir(folder)
        .env("PATH", path)
        .output();
    let output = output.expect("a shell");
    let told = String::from_utf8(output.stderr).expect("text");
    let wrong = |words: &str| told.starts_with(words) || told.contains(&format!("\n{words}"));
    assert!(output.status.code().is_some_and(|status| status < 4), "{line}: {told}");
    assert!(
        !wrong("error:") && !wrong("luvinqata:") && !wrong("sh:") && !wrong("refused"),
        "{line}: {told}"
    );
}

#[test]
fn every_command_can_be_given() {
    let folder = folder();
    let mut given = 0;
    let mut obey = |line: &str| {
        obeyed(line, &folder);
        given += 1;
    };
    for subcommand in ["run", "compile", "check", "map", "hours", "batch", "completions"] {
        let help = luvinqata(&[subcommand, "--help"], b"").out;
        let example = help.lines().find_map(|line| line.strip_prefix("example: "));
        obey(example.expect("an example"));
    }
    for document in ["README.md", "docs/GUIDE.md"] {
        let text = read_to_string(top(document)).expect("a document");
        for line in text.lines().filter_map(|line| line.strip_prefix("    ./luvinqata ")) {
            // What it does stands to its right.
            let line = line.split("  ").next().unwrap_or_default();
            let line = line
                .replace("DECK OBJECT", "examples/gale-hours.txt gale.object")
                .replace("OBJECT", "gale.object");
            let line = line
                .replace("TABLE.csv", "examples/gale-hours.csv")
                .replace("DECK", "examples/gale-hours.txt");
            obey(&format!("./luvinqata {}", line.replace("SHELL", "zsh")));
        }
    }
    assert!(given >= 16, "{given}");
}

/// Commands amid sentences: their subcommands and options are there.
#[test]
fn every_option_that_is_named_is_there() {
    let mut named = 0;
    for document in ["README.md", "docs/GUIDE.md", "docs/DECISIONS.md"] {
        let text = read_to_string(top(document)).expect("a document");
        for span in text.split('`').skip(1).step_by(2) {
            let words: Vec<&str> = span.split_whitespace().collect();
            let (subcommand, options) = match words[..] {
                ["./luvinqata" | "luvinqata", "SUBCOMMAND", ..] => continue,
                ["./luvinqata" | "luvinqata", subcommand, ref options @ ..] => (subcommand, options),
                ["hours", ref options @ ..] if options.iter().any(|word| word.starts_with("--")) => ("hours", options),
                _ => continue,
            };
            let help = luvinqata(&[subcommand, "--help"], b"");
            assert_eq!(help.status, 0, "{document}: {span}");
            for option in options.iter().filter(|word| word.starts_with("--")) {
                assert!(
                    help.out.contains(&format!("{option} ")) || help.out.contains(&format!("{option}\n")),
                    "{span}"
                );
            }
            named += 1;
        }
    }
    assert!(named >= 5, "{named}");
}
