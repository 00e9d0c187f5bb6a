//! Links the archive of proved code: the file that LUVINQATA_ARCHIVE names, else target/staticlib/libcalls.a.

use std::env;
use std::path::{Path, PathBuf};
use std::process::exit;

fn main() {
    println!("cargo:rerun-if-env-changed=LUVINQATA_ARCHIVE");
    let archive = match env::var_os("LUVINQATA_ARCHIVE") {
        Some(path) => PathBuf::from(path),
        None => {
            let here = env::var_os("CARGO_MANIFEST_DIR").expect("cargo names the crate's folder");
            Path::new(&here).join("../../target/staticlib/libcalls.a")
        }
    };
    println!("cargo:rerun-if-changed={}", archive.display());
    let Ok(archive) = archive.canonicalize() else {
        fail(&format!(
            "there is no archive {}\n`tools/archive`, run at the repository's top, makes it",
            archive.display()
        ));
    };
    let file = archive.file_name().and_then(|name| name.to_str()).unwrap_or("");
    let Some(name) = file.strip_prefix("lib").and_then(|rest| rest.strip_suffix(".a")) else {
        fail(&format!("{} is not named libNAME.a", archive.display()));
    };
    let folder = archive.parent().unwrap_or(Path::new("."));
    println!("cargo:rustc-link-search=native={}", folder.display());
    println!("cargo:rustc-link-lib=static={name}");
    // For the tests, which link it to programs in other languages.
    println!("cargo:rustc-env=LUVINQATA_LINKED={}", archive.display());
}

fn fail(message: &str) -> ! {
    eprintln!("luvinqata: {message}");
    exit(1);
}
