//! The command installed as README tells it, and used in an empty folder with nothing of this one.

mod common;

use std::fs::{create_dir_all, read_to_string, remove_dir_all};
use std::path::Path;
use std::process::Command;

use common::{command_of, top};

#[test]
fn the_command_elsewhere() {
    let readme = read_to_string(top("README.md")).expect("the README");
    let line = readme
        .lines()
        .find(|line| line.starts_with("    tools/x86-cargo install "))
        .expect("how to install it");
    let folder = std::env::temp_dir().join(format!("luvinqata-installed-{}", std::process::id()));
    create_dir_all(folder.join("empty")).expect("an empty folder");
    let line = line.replace("~/.local", folder.to_str().expect("a plain path"));
    let installed = Command::new("sh")
        .args(["-c", &line])
        .current_dir(top(""))
        .output()
        .expect("a shell");
    assert!(
        installed.status.success(),
        "{line}\n{}",
        String::from_utf8_lossy(&installed.stderr)
    );

    let ended = run(&folder.join("bin/luvinqata"), &folder.join("empty"));
    assert_eq!(ended, (Some(1), "HALT 1 STEPS 9 DROP 2\nI 47\nJ 3823\n".to_string()));
    remove_dir_all(&folder).expect("the folder gone");
}

/// Status and standard output of the gale, with nothing in the environment.
fn run(program: &Path, folder: &Path) -> (Option<i32>, String) {
    std::fs::write(folder.join("gale.txt"), "      I=47\n      J=I*I*I\n      END\n").expect("a deck");
    let output = command_of(program)
        .args(["run", "gale.txt"])
        .current_dir(folder)
        .env_clear()
        .output();
    let output = output.expect("the command");
    (
        output.status.code(),
        String::from_utf8_lossy(&output.stdout).into_owned(),
    )
}
