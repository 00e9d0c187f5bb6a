//! The crate used from a folder elsewhere, as README tells it.

use std::fs::{create_dir_all, read_to_string, remove_dir_all, write};
use std::os::unix::fs::symlink;
use std::path::Path;
use std::process::Command;

const TOP: &str = concat!(env!("CARGO_MANIFEST_DIR"), "/../..");

/// README's hour, and what comes before it.
const MAIN: &str = r#"
fn main() -> Result<(), Box<dyn std::error::Error>> {
    let deck = luvinqata::punch(b"      KUBE=KNOTS*KNOTS*KNOTS\n      END\n")?;
    let program = luvinqata::Program::compile(5, &deck)?;
    let mut hour = program.start();
    hour.set("KNOTS", 47)?;
    let answer = hour.run(1_000_000)?;
    println!("{:?} {:?}", answer.get("KUBE"), answer.lost());
    Ok(())
}
"#;

/// What README puts into a Cargo.toml.
fn dependencies() -> String {
    let readme = read_to_string(Path::new(TOP).join("README.md")).expect("the README");
    let after = readme.split_once("    [dependencies]\n").expect("the dependencies").1;
    let lines = after.lines().map_while(|line| line.strip_prefix("    "));
    format!("[dependencies]\n{}\n", lines.collect::<Vec<&str>>().join("\n"))
}

#[test]
fn a_crate_of_ones_own() {
    let folder = std::env::temp_dir().join(format!("luvinqata-outside-{}", std::process::id()));
    create_dir_all(folder.join("hours/src")).expect("an empty folder");
    // README's path is that of a folder beside this one.
    symlink(
        Path::new(TOP).canonicalize().expect("the top"),
        folder.join("luvinqata"),
    )
    .expect("a link");
    let package = "[package]\nname = \"hours\"\nversion = \"0.1.0\"\nedition = \"2021\"\n\n";
    write(folder.join("hours/Cargo.toml"), package.to_string() + &dependencies()).expect("its Cargo.toml");
    write(folder.join("hours/src/main.rs"), MAIN).expect("its source");
    let mut cargo = Command::new(env!("CARGO"));
    cargo
        .args(["run", "--quiet", "--offline"])
        .current_dir(folder.join("hours"));
    let output = cargo
        .env("CARGO_TARGET_DIR", folder.join("target"))
        .output()
        .expect("cargo");
    let told = String::from_utf8_lossy(&output.stderr);
    assert_eq!(
        String::from_utf8_lossy(&output.stdout),
        "Some(3823) Some(1)\n",
        "{told}"
    );
    remove_dir_all(&folder).expect("the folder gone");
}
