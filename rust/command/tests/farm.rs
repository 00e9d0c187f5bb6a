//! Three decks of a wind farm and its table of a quarter, 2,184 hours with what observers write, each hour compared with
//! the deck's formula in plain Rust.

mod common;

use std::collections::BTreeMap;

use common::{luvinqata, top, Ended};

const HOURS: usize = 2_184;
/// What observers wrote that is no reading.
const UNREAD: [&str; 5] = [
    "line 79: KNOTS: '' is no whole number",
    "line 213: KNOTS: 'n/a' is no whole number",
    "line 558: LIST(1): no field, the row has 6 of 13",
    "line 643: KNOTS: '1O' is no whole number",
    "line 1806: NTURB: 'x' is no whole number",
];

/// Named fields of a row.
type Fields = BTreeMap<String, String>;

/// A number of five digits, and whether more were lost by now.
#[derive(Default)]
struct Digits {
    lost: bool,
}

impl Digits {
    fn keep(&mut self, number: i64) -> i64 {
        self.lost |= number.abs() > 99_999;
        number % 100_000
    }
}

fn hours(deck: &str, more: &[&str]) -> (Ended, Vec<Fields>) {
    let folder = "rust/command/tests/farm";
    let paths = [format!("{folder}/{deck}.txt"), format!("{folder}/quarter.csv")].map(|path| top(&path));
    let mut arguments: Vec<&str> = vec!["hours"];
    arguments.extend(paths.iter().map(|path| path.to_str().expect("a path")));
    arguments.extend(more);
    let ended = luvinqata(&arguments, b"");
    let mut reader = csv::Reader::from_reader(ended.out.as_bytes());
    let rows: Vec<Fields> = reader.deserialize().collect::<Result<_, _>>().expect("a table");
    assert_eq!(rows.len(), HOURS, "every hour has its row");
    (ended, rows)
}

/// The values of a row; None if it could not be read.
fn numbers<const N: usize>(row: &Fields, names: [&str; N]) -> Option<[i64; N]> {
    let read = names.map(|name| row[name].parse().ok());
    read.iter()
        .all(Option::is_some)
        .then(|| read.map(Option::unwrap_or_default))
}

#[test]
fn the_power_of_the_ridge() {
    let (ended, rows) = hours("power", &[]);
    let mut losses = 0;
    for row in &rows {
        let Some([knots, turbines, kw, load, net, halt, loss]) =
            numbers(row, ["KNOTS", "NTURB", "KW", "LOAD", "NET", "halt", "loss"])
        else {
            continue;
        };
        let mut digits = Digits::default();
        let expected = match knots {
            8..=24 => knots * knots * knots / 26,
            25..=59 => 600,
            _ => 0,
        };
        let full = digits.keep(expected * turbines);
        let left = full - full / 100 * 3;
        let sequence = if digits.lost { 10 } else { 0 };
        assert_eq!(
            [kw, load, net, halt, loss],
            [expected, full, left, 0, sequence],
            "{row:?}"
        );
        losses += usize::from(digits.lost);
    }
    assert_eq!((ended.status, losses > 300), (3, true), "{losses}");
    let told = format!(
        "2177 hours done, {losses} lost digits, 7 could not be read\n\
         digits were lost in {losses}, first at statement 10:\ncard  14 |   60 LOAD=KW*NTURB\n"
    );
    assert!(ended.told.ends_with(&told), "{}", ended.told);
    for words in UNREAD {
        assert!(ended.told.lines().any(|line| line == words), "{words}");
    }
    let remark = rows.iter().find(|row| row["line"] == "404").expect("the gale");
    assert_eq!(remark["remark"], "gale warning\nfrom the coast");
}

#[test]
fn the_wakes_of_the_rows() {
    let (ended, rows) = hours("wake", &["--compare", "9"]);
    let mut losses = 0;
    for row in &rows {
        let Some([knots, degrees, share, wind, halt, loss]) =
            numbers(row, ["KNOTS", "KDEG", "MSHARE", "NWIND", "halt", "loss"])
        else {
            continue;
        };
        let sector = match (degrees + 22) / 45 + 1 {
            9 => 1,
            sector => sector,
        };
        let (take, kind) = match sector {
            4 => (17, 2),
            8 => (15, 2),
            3 | 7 => (2, 1),
            _ => (2, 0),
        };
        let left = 100 - take - kind * (knots / 20);
        let mut digits = Digits::default();
        let force = digits.keep(knots * knots * left);
        let sequence = if digits.lost { 16 } else { 0 };
        assert_eq!([share, wind, halt, loss], [left, force, 1, sequence], "{row:?}");
        losses += usize::from(digits.lost);
    }
    assert_eq!((ended.status, losses > 100), (3, true), "{losses}");
    let counted = format!("{losses} lost digits, 7 could not be read, {losses} differ with 9 digits\n");
    assert!(ended.told.contains(&counted), "{}", ended.told);
    assert_eq!(ended.told.matches(": with 9 digits NWIND is ").count(), losses);
}

#[test]
fn the_gusts_of_the_hours() {
    let (ended, rows) = hours("gusts", &[]);
    let mut calms = 0;
    for row in &rows {
        let readings = numbers(row, ["LIST(1)", "LIST(2)", "LIST(3)", "LIST(4)", "LIST(5)", "LIST(6)"]);
        let Some(readings) = readings else { continue };
        let ends = numbers(row, ["MEAN", "KGUST", "LULL", "KOVER", "halt", "loss"]).expect("a row that was run");
        let mean = readings.iter().sum::<i64>() / 6;
        let [gust, lull] = [readings.iter().max(), readings.iter().min()].map(|end| *end.expect("six readings"));
        let (over, halt) = match mean {
            0 => (0, 3),
            mean => ((gust - mean) * 100 / mean, 1),
        };
        assert_eq!(ends, [mean, gust, lull, over, halt, 0], "{row:?}");
        calms += usize::from(mean == 0);
    }
    assert_eq!((ended.status, calms > 20), (6, true), "{calms}");
    let told = format!(
        "2182 hours done, 0 lost digits, 2 could not be read, {calms} did not reach STOP or END\n\
         {calms} stopped by halt 3: division by zero, at statement 13:\n\
         card  16 |      KOVER=(KGUST-MEAN)*100/MEAN\n"
    );
    assert!(ended.told.ends_with(&told), "{}", ended.told);
}
