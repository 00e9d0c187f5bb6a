//! The archive's calls beside the same calls of the independent implementation, as ratios of their best times.

use std::hint::black_box;
use std::time::Instant;

use independent::object::*;
use independent::operation::*;
use luvinqata::{Halt, State};

/// Many short rounds: the best one had the machine to itself.
const ROUNDS: usize = 200;
const CHECKS: usize = 10;
const STEPS: u32 = 400_000;

/// Sums, products and an IF in two DOs.
const SUMS: [&str; 7] = [
    "      DO 20 J=1,99999",
    "      DO 10 I=1,9999",
    "      N=N+I*3",
    "      IF(I-5000)9,9,10",
    "    9 M=M+I",
    "   10 CONTINUE",
    "   20 CONTINUE",
];

/// Elements of one and of two subscripts.
const ELEMENTS: [&str; 6] = [
    "      DIMENSION L(50),M(50,41)",
    "      DO 20 N=1,99999",
    "      DO 20 I=1,50",
    "      L(I)=L(50)+I",
    "      DO 20 J=1,40",
    "   20 M(I,J)=M(I,J+1)+L(I)*J",
];

/// Quotients, minus signs and a computed GO TO.
const CHOICES: [&str; 9] = [
    "      DO 20 N=1,99999",
    "      DO 20 I=1,9999",
    "      J=I-I/3*3+1",
    "      GO TO (7,8,9),J",
    "    7 K=-K+I",
    "      GO TO 20",
    "    8 L=(L+I)/2",
    "    9 M=-(M-I)*2",
    "   20 CONTINUE",
];

fn deck(lines: &[&str]) -> Vec<u8> {
    luvinqata::punch(lines.join("\n").as_bytes()).expect("lines of at most 80 columns")
}

fn compiled(lines: &[&str]) -> Vec<u8> {
    let deck = deck(&[lines, &["      END"]].concat());
    luvinqata::compile_to_vec(5, &deck).expect("a right deck")
}

/// Ten statements, of every form but END. `n` stands for the tens of their numbers.
const TEN: [&str; 10] = [
    "  n0 I=I+J*3-K/2",
    "  n1 L(I)=L(I+1)+M(2,J)",
    "      IF(I-J)n0,n1,n2",
    "  n2 GO TO (n0,n1,n2),K",
    "      DO n3 N=1,K,2",
    "      M(N,2)=M(3*N-1,2)+NUMBER",
    "  n3 CONTINUE",
    "      IF((I+J)*(K-40))n4,n4,n2",
    "      GO TO n4",
    "  n4 KOUNT=-(KOUNT+I*(J-100))",
];

/// A deck of 400 statements.
fn longest() -> Vec<u8> {
    let mut lines = vec!["      DIMENSION L(50),M(50,41)".to_string()];
    for tens in 10..49 {
        lines.extend(TEN.iter().map(|line| line.replace('n', &tens.to_string())));
    }
    lines.extend(vec!["      STOP".to_string(); 8]);
    lines.push("      END".to_string());
    assert_eq!(lines.len(), 400);
    deck(&lines.iter().map(String::as_str).collect::<Vec<&str>>())
}

/// The same with an unknown operation where no way leads to, which only a bench run takes.
fn faulty(object: &[u8]) -> Vec<u8> {
    let mut tables = independent::check::open(object).expect("a right object");
    tables.code.push(pack(16, 0));
    tables.to_bytes()
}

/// An object with every table full, 4,096 instructions among them, that passes the check.
fn full() -> Vec<u8> {
    let mut t = Tables::empty(5);
    t.cells = 4096;
    t.constants = (0..256).collect();
    let subscript = |cell| SubscriptEntry {
        multiplier: 2,
        cell,
        addend: -1,
    };
    let element = |n| ElementEntry {
        base: n,
        rows: 60,
        columns: 60,
        subscripts: [subscript(n), subscript(n + 1)],
    };
    t.elements = (0..256).map(element).collect();
    // Twelve instructions a turn; each turn begins with nothing on the stack.
    for turn in 0..341 {
        let begin = 12 * turn;
        t.exits.extend([begin, begin + 8, 12 * (turn + 1)]);
        let (c, e) = (turn % 256, turn % 256);
        t.code.extend([
            pack(CON, c),
            pack(LDE, e),
            pack(MUL, 0),
            pack(LOD, turn),
            pack(ADD, 0),
            pack(STE, e),
        ]);
        t.code.extend([pack(LOD, turn), pack(BR3, 3 * turn)]);
        t.code
            .extend([pack(CON, c), pack(NEG, 0), pack(STO, turn), pack(DOE, turn % 64)]);
    }
    t.exits.push(0);
    t.code.extend([pack(HLT, 0); 4]);
    t.dos = (0..64)
        .map(|n| DoEntry {
            variable: n,
            limit: n + 1,
            step: n + 2,
            body: 12 * n,
        })
        .collect();
    t.statements = (0..400)
        .map(|n| StatementEntry {
            sequence: n + 1,
            number: 0,
            address: 10 * n,
        })
        .collect();
    t.names = (0..100)
        .map(|n| NameEntry {
            name: format!("{:8}", format!("I{n}"))
                .into_bytes()
                .try_into()
                .expect("eight bytes"),
            first: n,
            rows: 0,
            columns: 0,
        })
        .collect();
    t.to_bytes()
}

/// The best times of two calls that take turns.
fn race(mut ours: impl FnMut(), mut theirs: impl FnMut()) -> (f64, f64) {
    let mut best = (f64::MAX, f64::MAX);
    for _ in 0..ROUNDS {
        best.0 = best.0.min(time(&mut ours));
        best.1 = best.1.min(time(&mut theirs));
    }
    best
}

fn time(call: &mut impl FnMut()) -> f64 {
    let start = Instant::now();
    call();
    start.elapsed().as_secs_f64()
}

fn row(what: &str, (ours, theirs): (f64, f64), times: f64, unit: &str, most: f64) {
    let ratio = ours / theirs;
    let told = if ratio <= most { "" } else { "  OVER" };
    let (ours, theirs) = (ours * 1e9 / times, theirs * 1e9 / times);
    println!("{what:<28} {ours:>9.2} {theirs:>9.2} {unit:<9} {ratio:>6.2} {most:>6.1}{told}");
}

/// The four calls, each from a fresh state and a store of zeros.
struct Races {
    object: Vec<u8>,
    ours: Vec<i64>,
    theirs: Vec<i64>,
}

impl Races {
    fn new(object: Vec<u8>) -> Races {
        Races {
            object,
            ours: vec![0; 4096],
            theirs: vec![0; 4096],
        }
    }

    fn run(&mut self) -> (f64, f64) {
        let times = race(
            || our_run(&self.object, &mut self.ours),
            || their_run(&self.object, &mut self.theirs),
        );
        assert_eq!(self.ours, self.theirs);
        times
    }

    fn bench(&mut self) -> (f64, f64) {
        let times = race(
            || our_bench(&self.object, &mut self.ours),
            || their_bench(&self.object, &mut self.theirs),
        );
        assert_eq!(self.ours, self.theirs);
        times
    }
}

fn our_run(object: &[u8], store: &mut [i64]) {
    store.fill(0);
    let ran = luvinqata::run(black_box(object), store, &mut State::fresh(), STEPS);
    assert_eq!(ran.map(|ran| (ran.halt, ran.steps)), Ok((Halt::Allowance, STEPS)));
}

fn our_bench(object: &[u8], store: &mut [i64]) {
    store.fill(0);
    let ran = luvinqata::bench(black_box(object), store, &mut State::fresh(), STEPS);
    assert_eq!(ran.map(|ran| (ran.halt, ran.steps)), Ok((Halt::Allowance, STEPS)));
}

fn their_run(object: &[u8], store: &mut [i64]) {
    store.fill(0);
    let ran = independent::run(black_box(object), store, &mut independent::State::fresh(), STEPS);
    assert_eq!(ran.map(|ran| (ran.halt, ran.steps)), Ok((2, STEPS)));
}

fn their_bench(object: &[u8], store: &mut [i64]) {
    store.fill(0);
    let ran = independent::bench(black_box(object), store, STEPS);
    assert_eq!(ran.map(|(ran, _)| (ran.halt, ran.steps)), Ok((2, STEPS)));
}

fn main() {
    println!(
        "best of {ROUNDS} rounds {:>19} {:>9} {:>16} {:>6}",
        "archive", "plain", "ratio", "most"
    );
    for (what, lines) in [
        ("sums", &SUMS[..]),
        ("elements", &ELEMENTS[..]),
        ("choices", &CHOICES[..]),
    ] {
        let mut races = Races::new(compiled(lines));
        row(&format!("run: {what}"), races.run(), STEPS.into(), "ns/step", 1.0);
        row(
            &format!("bench run: {what}"),
            races.bench(),
            STEPS.into(),
            "ns/step",
            1.3,
        );
        let mut races = Races::new(faulty(&races.object));
        row(
            &format!("bench run, faulty: {what}"),
            races.bench(),
            STEPS.into(),
            "ns/step",
            1.3,
        );
    }

    let object = full();
    assert_eq!(luvinqata::check(&object), Ok(()));
    let times = race(
        || (0..CHECKS).for_each(|_| assert!(luvinqata::check(black_box(&object)).is_ok())),
        || (0..CHECKS).for_each(|_| assert!(independent::check(black_box(&object)).is_ok())),
    );
    row("check: 4,096 instructions", times, CHECKS as f64 * 1e3, "us/check", 2.0);

    let deck = longest();
    let (mut ours, mut theirs) = (vec![0; luvinqata::LONGEST_OBJECT], vec![0; luvinqata::LONGEST_OBJECT]);
    let times = race(
        || assert!(luvinqata::compile(5, black_box(&deck), &mut ours).is_ok()),
        || assert!(independent::compile(5, black_box(&deck), &mut theirs).is_ok()),
    );
    assert_eq!(ours, theirs);
    row("compile: 400 statements", times, 1e3, "us/deck", 2.0);
}
