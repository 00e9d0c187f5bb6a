//! The launcher builds when what was built is not what there is, whatever the times say; cargo gets the crates that are
//! missing.

mod common;

use std::fs;
use std::path::{Path, PathBuf};
use std::process::Command;
use std::time::SystemTime;

use common::{script, top};

/// A program that prints the source that it was built from.
const CARGO: &str = "#!/bin/sh
echo prover and compiler talk
echo build >>builds
grep -q broken crates/source && { echo a source is broken; exit 1; }
mkdir -p target/cargo/release
{ echo '#!/bin/sh'; echo \"echo $(cat crates/source) \\\"\\$@\\\"\"; } >target/cargo/release/luvinqata
chmod +x target/cargo/release/luvinqata
";

fn folder(name: &str) -> PathBuf {
    let folder = Path::new(env!("CARGO_TARGET_TMPDIR")).join(name);
    let _ = fs::remove_dir_all(&folder);
    for part in ["crates", "rust/luvinqata", "rust/command", "tools", "bin", "registry"] {
        fs::create_dir_all(folder.join(part)).expect("a folder");
    }
    for file in [
        "crates.txt",
        "rust/luvinqata/lib.rs",
        "rust/command/main.rs",
        "crates/source",
    ] {
        fs::write(folder.join(file), "first").expect("a source");
    }
    fs::copy(top("luvinqata"), folder.join("luvinqata")).expect("the launcher");
    script(&folder.join("tools/x86-cargo"), CARGO);
    script(&folder.join("tools/archive"), "#!/bin/sh\necho proved\n");
    script(&folder.join("bin/rt"), "#!/bin/sh\necho proved\n");
    script(&folder.join("bin/uname"), "#!/bin/sh\necho x86_64\n");
    folder
}

/// A program of the folder, with the folder's own tools before others: status, output and words.
fn run(folder: &Path, program: &str, arguments: &[&str]) -> (i32, String, String) {
    let path = std::env::var("PATH").expect("a path");
    let output = Command::new(folder.join(program))
        .args(arguments)
        .env("PATH", format!("{}:{path}", folder.join("bin").display()))
        .env_remove("LUVINQATA_ARCHIVE")
        .output()
        .expect("a program");
    let text = |bytes| String::from_utf8(bytes).expect("text");
    let status = output.status.code().expect("a status");
    (status, text(output.stdout), text(output.stderr))
}

/// The launcher's, and how many builds there were by now.
fn launch(folder: &Path) -> (i32, String, String, usize) {
    let (status, out, told) = run(folder, "luvinqata", &["run", "a deck"]);
    let builds = fs::read_to_string(folder.join("builds")).unwrap_or_default();
    (status, out, told, builds.lines().count())
}

#[test]
fn it_builds_what_there_is() {
    let folder = folder("launcher");
    let (status, out, told, builds) = launch(&folder);
    assert_eq!((status, out.as_str(), builds), (0, "first run a deck\n", 1));
    assert!(
        told.starts_with("luvinqata: building") && told.lines().count() == 1,
        "{told}"
    );
    assert_eq!(launch(&folder), (0, "first run a deck\n".to_string(), String::new(), 1));

    // Another source, older than the program.
    let source = folder.join("crates/source");
    fs::write(&source, "second").expect("a source");
    let old = fs::File::options().write(true).open(&source).expect("a source");
    old.set_modified(SystemTime::UNIX_EPOCH).expect("its time");
    assert_eq!(launch(&folder).1, "second run a deck\n");
    assert_eq!(launch(&folder).3, 2);

    // Another program than the one that was built.
    script(
        &folder.join("target/cargo/release/luvinqata"),
        "#!/bin/sh\necho other\n",
    );
    assert_eq!(launch(&folder).1, "second run a deck\n");

    fs::write(&source, "broken").expect("a source");
    let (status, out, told, _) = launch(&folder);
    assert_eq!((status, out.as_str()), (2, ""));
    assert!(
        told.contains("a source is broken") && told.contains("it is not built"),
        "{told}"
    );
}

#[test]
fn crates_that_are_missing_are_installed() {
    let folder = folder("crates");
    let registry = folder.join("registry");
    let cargo = fs::read_to_string(top("tools/cargo-with-crates")).expect("the script");
    assert!(cargo.contains("crates=/usr/share/cargo/registry\n"));
    let cargo = cargo.replace("/usr/share/cargo/registry", registry.to_str().expect("a path"));
    script(&folder.join("tools/cargo-with-crates"), &cargo);
    fs::copy(top("tools/x86-cargo"), folder.join("tools/x86-cargo")).expect("the script");
    script(&folder.join("bin/apt-get"), "#!/bin/sh\necho apt-get \"$@\" >&2\n");
    script(&folder.join("bin/cargo"), "#!/bin/sh\nprintf '%s|' \"$@\"\n");
    let lock = folder.join("rust/command/Cargo.lock");
    fs::write(&lock, "other releases").expect("a lock");
    fs::create_dir(registry.join("csv-1.1.6")).expect("a crate");
    let (status, out, told) = run(&folder, "tools/x86-cargo", &["build", "a b"]);
    let source = format!("--config|source.debian.directory=\"{}\"|", registry.display());
    let expected = format!("--config|source.crates-io.replace-with=\"debian\"|{source}build|a b|");
    assert_eq!((status, out), (0, expected));
    let packages = ["clap", "clap-complete", "indicatif", "plotters"].map(|name| format!(" librust-{name}-dev"));
    let install = format!("apt-get install -y -qq --no-install-recommends{}\n", packages.concat());
    assert_eq!(told, format!("apt-get update -qq\n{install}"));
    assert!(!lock.exists());
    for name in [
        "clap-4.0.32",
        "clap_complete-4.0.7",
        "indicatif-0.17.3",
        "plotters-0.3.4",
    ] {
        fs::create_dir(registry.join(name)).expect("a crate");
    }
    assert_eq!(run(&folder, "tools/x86-cargo", &["build"]).2, "");
}
