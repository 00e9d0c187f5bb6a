//! How much stack compiling takes: the least with which a deck is compiled in a thread, to 4 KiB. Each try is a process of its own, for one that
//! has too little dies.

use std::env;
use std::process::{exit, Command, Stdio};
use std::thread;

use luvinqata::{compile, LONGEST_OBJECT};

const STEP: usize = 4 << 10;
const MOST: usize = 2 << 20;

/// An assignment on ten cards: its text columns full of opening parentheses; or a deck of one statement.
fn deck(which: &str) -> Vec<u8> {
    let parentheses = if which == "deepest" { 658 } else { 0 };
    let text = format!("I={}1", "(".repeat(parentheses));
    let mut deck = String::new();
    for (index, part) in text.as_bytes()[..text.len().min(660)].chunks(66).enumerate() {
        let columns: String = part.iter().map(|byte| char::from(*byte)).collect();
        deck += &format!("     {}{columns:74}", if index == 0 { ' ' } else { '1' });
    }
    (deck + &format!("{:80}", "      END")).into_bytes()
}

/// In a thread with so much stack; the answer must be the deck's: 10, or an object.
fn try_with(which: &str, stack: usize) {
    let deck = deck(which);
    let expected = which == "deepest";
    let mut output = vec![0; LONGEST_OBJECT];
    let call = move || compile(5, &deck, &mut output).is_err_and(|refusal| refusal.number() == 10);
    let thread = thread::Builder::new().stack_size(stack).spawn(call).expect("a thread");
    exit(i32::from(thread.join().expect("no panic") != expected));
}

fn enough(which: &str, stack: usize) -> bool {
    let program = env::current_exe().expect("this program");
    let mut command = match env::var("CARGO_TARGET_X86_64_UNKNOWN_LINUX_GNU_RUNNER") {
        Ok(runner) => {
            let mut command = Command::new(runner);
            command.arg(program);
            command
        }
        Err(_) => Command::new(program),
    };
    let status = command
        .args(["--stack", which, &stack.to_string()])
        .stderr(Stdio::null())
        .status();
    status.expect("a try").success()
}

fn main() {
    let arguments: Vec<String> = env::args().collect();
    if let Some(at) = arguments.iter().position(|argument| argument == "--stack") {
        try_with(&arguments[at + 1], arguments[at + 2].parse().expect("bytes"));
    }
    for (which, words) in [("plain", "stack: one statement"), ("deepest", "stack: 658 parentheses")] {
        let (mut least, mut most) = (0, MOST / STEP);
        assert!(enough(which, MOST));
        while least + 1 < most {
            let middle = (least + most) / 2;
            if enough(which, middle * STEP) {
                most = middle;
            } else {
                least = middle;
            }
        }
        println!("{words:<26}{:>14} KiB", (most * STEP) >> 10);
    }
}
