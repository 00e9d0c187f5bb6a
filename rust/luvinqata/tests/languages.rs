//! The archive from other languages: the C header says what `raw.rs` declares, and the examples in C and Python answer as the crate does.

use std::fs::{create_dir_all, read_to_string, remove_dir_all};
use std::path::{Path, PathBuf};
use std::process::Command;

use luvinqata::{Program, CARD, LINE, LONGEST_OBJECT, STACK};

const RAW: &str = include_str!("../src/raw.rs");
/// The archive that this test is linked with.
const ARCHIVE: &str = env!("LUVINQATA_LINKED");
const RUNNER: &str = "CARGO_TARGET_X86_64_UNKNOWN_LINUX_GNU_RUNNER";
const LINKER: &str = "CARGO_TARGET_X86_64_UNKNOWN_LINUX_GNU_LINKER";

const DECK: &str = "examples/gale-hours.txt";
const HOURS: [&str; 6] = ["0", "12", "46", "47", "-52", "100000"];

/// A path from the repository's top.
fn top(path: &str) -> PathBuf {
    Path::new(env!("CARGO_MANIFEST_DIR")).join("../..").join(path)
}

fn words(text: &str) -> String {
    text.split_whitespace().collect::<Vec<&str>>().join(" ")
}

/// A number or a pointer as C declares it.
fn declared(parameter: &str) -> String {
    let (name, kind) = parameter.trim().split_once(": ").expect("a name and its type");
    match kind {
        "u32" => format!("uint32_t {name}"),
        "usize" => format!("size_t {name}"),
        "*const u8" => format!("const uint8_t *{name}"),
        "*mut u8" => format!("uint8_t *{name}"),
        "*mut u32" => format!("uint32_t *{name}"),
        "*mut i64" => format!("int64_t *{name}"),
        "*mut [i64; STACK]" => format!("int64_t {name}[LUVINQATA_STACK]"),
        _ => panic!("{kind}"),
    }
}

fn structure(name: &str) -> String {
    format!("struct luvinqata_{}", name.to_lowercase())
}

/// Every struct and function of `raw.rs` as C declares it.
fn declarations() -> Vec<String> {
    let raw = words(RAW);
    let structs = raw.split("#[repr(C)] pub struct ").skip(1).map(|text| {
        let (name, fields) = text.split_once(" { ").expect("fields");
        let fields = fields.split_once(", }").expect("an end").0.split(", ");
        let fields = fields.map(|field| declared(field.trim_start_matches("pub ")) + "; ");
        format!("{} {{ {}}};", structure(name), fields.collect::<String>())
    });
    let block = raw
        .split("extern \"C\" {")
        .nth(1)
        .and_then(|text| text.split('}').next());
    let functions = block.expect("the functions").split("fn ").skip(1).map(|text| {
        let (name, rest) = text.split_once('(').expect("parameters");
        let (parameters, answer) = rest.split_once(") -> ").expect("an answer");
        let parameters = parameters.trim().trim_end_matches(',').split(", ").map(declared);
        let parameters: Vec<String> = parameters.collect();
        let answer = structure(answer.trim().trim_end_matches(';'));
        format!("{answer} {name}({});", parameters.join(", "))
    });
    structs.chain(functions).collect()
}

#[test]
fn the_header_says_what_the_crate_declares() {
    let header = words(&read_to_string(top("include/luvinqata.h")).expect("the header"));
    let declarations = declarations();
    assert_eq!(declarations.len(), 8, "{declarations:#?}");
    for declaration in &declarations {
        assert!(header.contains(declaration), "{declaration}");
    }
    assert_eq!(
        header.matches("luvinqata_").count() - header.matches("struct luvinqata_").count(),
        5
    );
    assert_eq!(header.matches(" { ").count(), 4, "three structs and the block for C++");
    for (name, value) in [
        ("LONGEST_OBJECT", LONGEST_OBJECT),
        ("LONGEST_TABLE", 100 * 20),
        ("CARD", CARD),
        ("LINE", LINE),
        ("CELLS", independent::limits::CELLS),
        ("STACK", STACK),
    ] {
        assert!(header.contains(&format!("#define LUVINQATA_{name} {value} ")), "{name}");
    }
}

/// TRUST names one file, and in the others the compiler refuses any.
#[test]
fn one_unsafe_file() {
    let library = include_str!("../src/lib.rs");
    assert!(library.contains("#![deny(missing_docs, unsafe_code)]"));
    assert_eq!(library.matches("allow(unsafe_code)").count(), 1);
    assert!(library.contains("#[allow(unsafe_code)]\nmod raw;"));
}

/// What each hour prints, by the crate.
fn expected() -> String {
    let deck = luvinqata::punch(&std::fs::read(top(DECK)).expect("the deck")).expect("short lines");
    let program = Program::compile(5, &deck).expect("a right deck");
    let line = |knots: &str| {
        let mut hour = program.start();
        if hour.set("KNOTS", knots.parse().expect("a number")).is_err() {
            return format!("{knots} refused 51\n");
        }
        let answer = hour.run(1_000_000).expect("a right value");
        let (kube, lost) = (answer.get("KUBE").expect("a value"), answer.lost().unwrap_or(0));
        format!("{knots} {kube} halt {} lost {lost}\n", answer.halt())
    };
    HOURS.map(line).concat()
}

/// What a command prints; it must not fail.
fn printed(command: &mut Command) -> String {
    let output = command.output().expect("the command");
    assert!(
        output.status.success(),
        "{command:?}: {}",
        String::from_utf8_lossy(&output.stderr)
    );
    String::from_utf8(output.stdout).expect("text")
}

/// The C compiler for the archive's machine.
fn cc() -> Command {
    Command::new(std::env::var(LINKER).unwrap_or("cc".to_string()))
}

fn made(name: &str) -> PathBuf {
    Path::new(env!("CARGO_TARGET_TMPDIR")).join(name)
}

#[test]
fn hours_from_c() {
    let program = made("hours");
    let mut compile = cc();
    compile
        .args(["-std=c11", "-Wall", "-Wextra", "-Werror", "-pedantic", "-I"])
        .arg(top("include"));
    printed(
        compile
            .arg(top("examples/hours.c"))
            .arg(ARCHIVE)
            .arg("-o")
            .arg(&program),
    );
    let mut command = match std::env::var(RUNNER) {
        Ok(runner) => {
            let mut command = Command::new(runner);
            command.arg(&program);
            command
        }
        Err(_) => Command::new(&program),
    };
    let told = printed(command.arg(top(DECK)).args(["KNOTS", "KUBE"]).args(HOURS));
    assert_eq!(told, expected());
}

/// Where there is no Python, or only one for another machine than the archive's, there is nothing to try.
#[test]
fn hours_from_python() {
    let there = Command::new("python3").arg("--version").output().is_ok();
    if !there || std::env::var(RUNNER).is_ok() {
        return;
    }
    let library = made("libluvinqata.so");
    let whole = ["-Wl,--whole-archive", ARCHIVE, "-Wl,--no-whole-archive"];
    printed(cc().arg("-shared").arg("-o").arg(&library).args(whole));
    let mut python = Command::new("python3");
    python
        .arg("-B")
        .arg(top("examples/hours.py"))
        .arg(&library)
        .arg(top(DECK));
    assert_eq!(printed(python.args(["KNOTS", "KUBE"]).args(HOURS)), expected());
}

/// The commands that GUIDE shows, in a folder with what they name. They are for the archive's own machine.
#[test]
fn the_guides_commands() {
    let guide = read_to_string(top("docs/GUIDE.md")).expect("the guide");
    let shown = |line: &&str| ["cc ", "target/", "python3 "].iter().any(|word| line.starts_with(word));
    let commands: Vec<&str> = guide
        .lines()
        .filter_map(|line| line.strip_prefix("    "))
        .filter(shown)
        .collect();
    assert_eq!(commands.len(), 4, "{commands:?}");
    if std::env::var(RUNNER).is_ok() {
        return;
    }
    let folder = made("guide");
    let _ = remove_dir_all(&folder);
    create_dir_all(folder.join("target/staticlib")).expect("a folder");
    for (there, name) in [
        (top("include"), "include"),
        (top("examples"), "examples"),
        (ARCHIVE.into(), "target/staticlib/libcalls.a"),
    ] {
        // No link: the prover's gate refuses one anywhere below the top.
        let there = there.canonicalize().expect("a path");
        printed(Command::new("cp").arg("-r").args([there, folder.join(name)]));
    }
    let python = Command::new("python3").arg("--version").output().is_ok();
    for command in commands
        .iter()
        .filter(|command| python || !command.starts_with("python3"))
    {
        let told = printed(Command::new("sh").args(["-c", command]).current_dir(&folder));
        let hours = if command.starts_with("cc ") {
            ""
        } else {
            "46 97336 halt 1 lost 0\n47 3823 halt 1 lost 1\n"
        };
        assert_eq!(told, hours, "{command}");
    }
}
