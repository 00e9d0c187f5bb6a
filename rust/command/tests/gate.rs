//! The test command takes nothing from its caller's environment, names the kit, and ends with the prover's count.

mod common;

use std::fs;
use std::path::{Path, PathBuf};
use std::process::Command;

use common::{script, top};

/// A prover that has passed two crates and an edit.
const RT: &str = "#!/bin/sh
case $1 in
version) echo kit of today ;;
ci) echo 'rt: small proved (3 s)'; echo 'rt: large proved (12 s)'; echo 'rt: must-fail small/wrong: refused (4 s)'; echo '3 passed, 0 failed' ;;
esac
";

/// A cargo that tells what of the caller's environment reaches the tests.
const CARGO: &str = "#!/bin/sh
echo \"archive ${LUVINQATA_ARCHIVE:-unset} cases ${LUVINQATA_CASES:-unset}\"
";

/// A folder with the test command and stand-ins for all that it calls.
fn folder(name: &str, kit: &str) -> PathBuf {
    let folder = Path::new(env!("CARGO_TARGET_TMPDIR")).join(name);
    let _ = fs::remove_dir_all(&folder);
    for part in ["tools", "bin"] {
        fs::create_dir_all(folder.join(part)).expect("a folder");
    }
    fs::copy(top("test"), folder.join("test")).expect("the test command");
    fs::write(folder.join("tools/kit"), kit).expect("the kit's name");
    script(&folder.join("bin/rt"), RT);
    script(&folder.join("tools/x86-cargo"), CARGO);
    for tool in ["exceptions", "refusals", "archive", "program"] {
        script(&folder.join("tools").join(tool), "#!/bin/sh\n");
    }
    folder
}

fn tested(folder: &Path, arguments: &[&str]) -> String {
    let path = std::env::var("PATH").expect("a path");
    let output = Command::new(folder.join("test"))
        .args(arguments)
        .env("PATH", format!("{}:{path}", folder.join("bin").display()))
        .env("LUVINQATA_ARCHIVE", "another.a")
        .env("LUVINQATA_CASES", "1")
        .output()
        .expect("the test command");
    assert!(output.status.success(), "{output:?}");
    String::from_utf8(output.stdout).expect("text")
}

#[test]
fn what_the_caller_has_set_is_not_obeyed() {
    let folder = folder("gate-environment", "kit of today\n");
    let told = tested(&folder, &[]);
    assert_eq!(told.matches("archive unset cases unset").count(), 3, "{told}");
    let told = tested(&folder, &["--cases", "70"]);
    assert_eq!(told.matches("archive unset cases 70").count(), 3, "{told}");
}

#[test]
fn it_tells_the_kit_the_dearest_and_the_time_and_ends_with_the_count() {
    let told = tested(&folder("gate-kit", "kit of today\n"), &[]);
    assert!(
        told.starts_with("kit: kit of today\n") && !told.contains("WARNING"),
        "{told}"
    );
    let dear = told.find("12 s  large").expect("the dearest crate");
    assert!(dear < told.find("3 s  small\n").expect("the other"), "{told}");
    assert!(told.contains("4 s  small/wrong"), "{told}");
    let last: Vec<&str> = told.lines().rev().take(2).collect();
    assert_eq!(last[0], "3 passed, 0 failed");
    assert!(last[1].starts_with("processor time: "), "{told}");
}

#[test]
fn another_kit_is_told() {
    let told = tested(&folder("gate-other-kit", "kit of yesterday\n"), &[]);
    assert!(
        told.contains("WARNING: THIS IS ANOTHER KIT THAN tools/kit NAMES: kit of yesterday"),
        "{told}"
    );
}
