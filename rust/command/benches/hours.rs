//! The time of `hours` on a table of 10,000 rows with a deck of a hundred statements, with one core and with all.

use std::fs;
use std::path::Path;
use std::process::{Command, Stdio};
use std::time::Instant;

const ROWS: usize = 10_000;
const ROUNDS: usize = 5;

/// A hundred statements: the cube of each hour's knots, sums of shares of it, and a DO of ten turns.
fn deck() -> String {
    let mut lines = vec![
        "      DIMENSION LIST(10)".to_string(),
        "      KUBE=KNOTS*KNOTS*KNOTS".to_string(),
        "      DO 20 I=1,10".to_string(),
        "   20 LIST(I)=KUBE/I+MEAN".to_string(),
    ];
    for n in 0..47 {
        lines.push(format!("      M{n}=LIST({})/{}+NUMBER/3", n % 10 + 1, n + 1));
        lines.push(format!("      NUMBER=(NUMBER+M{n})/2"));
    }
    lines.extend(["      STOP".to_string(), "      END".to_string()]);
    assert_eq!(lines.len(), 100);
    lines.join("\n")
}

fn table() -> String {
    let row = |hour: usize| format!("{hour},{},{}\n", hour * 37 % 61, hour % 90);
    "hour,KNOTS,MEAN\n".to_string() + &(0..ROWS).map(row).collect::<String>()
}

/// The best time of some rounds, and the counts that it tells.
fn measure(threads: usize, files: [&Path; 2]) -> (f64, String) {
    let (mut best, mut told) = (f64::MAX, String::new());
    for _ in 0..ROUNDS {
        let start = Instant::now();
        let output = Command::new(env!("CARGO_BIN_EXE_luvinqata"))
            .arg("hours")
            .args(files)
            .arg(format!("--threads={threads}"))
            .stdin(Stdio::null())
            .output()
            .expect("the command");
        best = best.min(start.elapsed().as_secs_f64());
        let text = String::from_utf8_lossy(&output.stderr);
        told = text
            .lines()
            .find(|line| line.contains("hours done"))
            .unwrap_or_default()
            .to_string();
        assert_eq!(output.stdout.iter().filter(|byte| **byte == b'\n').count(), ROWS + 1);
    }
    (best, told)
}

fn main() {
    let folder = Path::new(env!("CARGO_TARGET_TMPDIR"));
    let (deck_file, table_file) = (folder.join("hundred.txt"), folder.join("hours.csv"));
    fs::write(&deck_file, deck()).expect("the deck's file");
    fs::write(&table_file, table()).expect("the table's file");
    let cores = std::thread::available_parallelism().map_or(1, usize::from);
    for threads in [1, cores] {
        let (best, told) = measure(threads, [&deck_file, &table_file]);
        println!(
            "hours: {ROWS} rows, 100 statements, {threads} of {cores} cores: {best:.2} s, best of {ROUNDS} ({told})"
        );
    }
}
