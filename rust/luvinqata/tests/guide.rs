//! The Rust of GUIDE and README, compiled and run: what they show are lines of this file.

use std::error::Error;
use std::fs::read_to_string;
use std::path::Path;

use luvinqata::Halt;

const HERE: &str = include_str!("guide.rs");

/// Cubes the knots of an hour, in a DO of some turns.
const TEXT: &[u8] = b"      DO 10 I=1,9999\n   10 KUBE=KNOTS*KNOTS*KNOTS\n      END\n";

/// The indented blocks of a document that call the crate.
fn blocks(document: &str) -> Vec<String> {
    let path = Path::new(env!("CARGO_MANIFEST_DIR")).join("../..").join(document);
    let text = read_to_string(path).expect("a document");
    let mut blocks = vec![String::new()];
    for line in text.lines() {
        match line.strip_prefix("    ") {
            Some(code) => *blocks.last_mut().expect("a block") += &format!("{}\n", code.trim_end()),
            None if line.is_empty() => {}
            None => blocks.push(String::new()),
        }
    }
    let rust = |block: &String| block.contains("luvinqata::") || block.contains("hour.run(");
    blocks.into_iter().filter(rust).collect()
}

#[test]
fn the_documents_show_this_code() {
    let lines: Vec<&str> = HERE.lines().map(str::trim).collect();
    for (document, count) in [("docs/GUIDE.md", 5), ("README.md", 1)] {
        let blocks = blocks(document);
        assert_eq!(blocks.len(), count, "{document}");
        for block in blocks {
            let shown: Vec<&str> = block.lines().map(str::trim).collect();
            let found = lines.windows(shown.len()).any(|part| part == shown);
            assert!(found, "{document}:\n{block}");
        }
    }
}

/// A change of the version has its lines.
#[test]
fn the_changes_begin_with_this_version() {
    let path = Path::new(env!("CARGO_MANIFEST_DIR")).join("../../CHANGELOG.md");
    let changes = read_to_string(path).expect("the changes");
    let version = changes.lines().find_map(|line| line.strip_prefix("## "));
    assert_eq!(version, Some(env!("CARGO_PKG_VERSION")));
}

#[test]
fn an_hour() -> Result<(), Box<dyn Error>> {
    let text = TEXT;
    let deck = luvinqata::punch(text)?;
    let program = luvinqata::Program::compile(5, &deck)?;
    let mut hour = program.start();
    hour.set("KNOTS", 47)?;
    let answer = hour.run(1_000_000)?;
    assert!(answer.halt().is_end(), "the deck's own end");
    let (kube, lost) = (answer.get("KUBE"), answer.lost());
    assert_eq!((kube, lost), (Some(3823), Some(2)));
    Ok(())
}

#[test]
fn plain_calls() -> Result<(), Box<dyn Error>> {
    let deck = luvinqata::punch(TEXT)?;
    let object = luvinqata::compile_to_vec(5, &deck)?;
    let mut store = luvinqata::Store::new(&object)?;
    store.set("KNOTS", 47).ok_or("the deck has no KNOTS")?;
    let mut state = luvinqata::State::fresh();
    let ran = luvinqata::run(&object, store.cells_mut(), &mut state, 1_000_000)?;
    assert_eq!((ran.halt, store.get("KUBE")), (Halt::End, Some(3823)));
    Ok(())
}

#[test]
fn a_long_hour() -> Result<(), Box<dyn Error>> {
    let program = luvinqata::Program::compile(5, &luvinqata::punch(TEXT)?)?;
    let hour = program.start();
    let mut answer = hour.run(100_000)?;
    while answer.halt() == luvinqata::Halt::Allowance {
        answer = answer.resume(100_000)?;
    }
    let (cells, kept) = (answer.cells().to_vec(), answer.state().to_bytes());
    let answer = program.resume(cells, luvinqata::State::from_bytes(&kept)).run(1_000)?;
    assert_eq!((answer.halt(), answer.get("I")), (Halt::End, Some(9999)));
    Ok(())
}

#[test]
fn cards_and_lines() -> Result<(), Box<dyn Error>> {
    let text = b"      DO 7 N=1,2\n      READ 1,KNOTS\n    7 PRINT 1,KNOTS\n    1 FORMAT(I5)\n      END\n";
    let compiled = independent::Level::Cards.accept(5, &luvinqata::punch(text)?);
    let (_, tables) = compiled.map_err(|refusal| format!("{refusal:?}"))?;
    let program = luvinqata::Program::read(tables.to_bytes())?;
    let cards = luvinqata::punch(b"   47\n   12\n")?;
    let mut hour = program.start();
    hour.lend(luvinqata::Trays::new(&cards, 100));
    let answer = hour.run(1_000_000)?;
    let printed: Vec<&str> = answer.trays().lines.iter().collect();
    assert_eq!((answer.halt(), printed), (Halt::End, vec!["   47", "   12"]));
    Ok(())
}
