//! The options of `hours`: what is written, where, and in which form.

mod common;

use std::fs;
use std::path::{Path, PathBuf};
use std::process::Command;
use std::sync::OnceLock;

use common::{luvinqata, top, Ended, LUVINQATA};

const DECK: &str = "      DIMENSION L(2)\n      L(1)=I*2\n      L(2)=I*300\n      I=0\n      END\n";
const TABLE: &str = "day,I,\"a \"\"b\"\"\"\nmon,7,\"x,\n\"\ntue,-500,\\\nwed,?,\x01\n";

fn hours(more: &[&str], table: &str) -> Ended {
    static FILE: OnceLock<PathBuf> = OnceLock::new();
    let deck = FILE.get_or_init(|| common::file("options.txt", DECK.as_bytes()));
    let mut arguments = vec!["hours", deck.to_str().expect("a path"), "-"];
    arguments.extend(more);
    luvinqata(&arguments, table.as_bytes())
}

fn written(more: &[&str]) -> String {
    let ended = hours(more, TABLE);
    assert_eq!(ended.status, 3, "{more:?}: {}", ended.told);
    ended.out
}

#[test]
fn only_some_values() {
    let own = "line,day,\"a \"\"b\"\"\"";
    let all = format!("{own},L(1),L(2),I,halt,loss\n2,mon,\"x,\n\",14,2100,0,1,0\n4,tue,\\,-1000,-50000,0,1,3\n");
    assert_eq!(written(&[]), format!("{all}5,wed,\x01,,,,,\n"));
    let some = |names, values| {
        let rows = written(&["--only", names]);
        assert_eq!(
            rows.lines().next(),
            Some(&*format!("{own},{values},halt,loss")),
            "{names}"
        );
        rows
    };
    assert!(some("L(2)", "L(2)").ends_with("\",2100,1,0\n4,tue,\\,-50000,1,3\n5,wed,\x01,,,\n"));
    some("I,L", "L(1),L(2),I");
    some("L(1), I", "L(1),I");
    let ended = hours(&["--only", "L(3)"], TABLE);
    assert_eq!((ended.status, ended.out.as_str()), (2, ""));
    assert!(
        ended
            .told
            .ends_with("--only L(3): no value of the deck, which has L(2), I\n"),
        "{}",
        ended.told
    );
}

#[test]
fn inputs_are_kept() {
    let rows = written(&["--keep-inputs", "--only", "I"]);
    let expected =
        "line,day,I.given,\"a \"\"b\"\"\",I,halt,loss\n2,mon,7,\"x,\n\",0,1,0\n4,tue,-500,\\,0,1,3\n5,wed,?,\x01,,,\n";
    assert_eq!(rows, expected);
}

#[test]
fn a_json_object_a_row() {
    let expected = "{\"line\":2,\"day\":\"mon\",\"a \\\"b\\\"\":\"x,\\u000a\",\"L(1)\":14,\"L(2)\":2100,\"I\":0,\"halt\":1,\"loss\":0}\n\
                    {\"line\":4,\"day\":\"tue\",\"a \\\"b\\\"\":\"\\\\\",\"L(1)\":-1000,\"L(2)\":-50000,\"I\":0,\"halt\":1,\"loss\":3}\n\
                    {\"line\":5,\"day\":\"wed\",\"a \\\"b\\\"\":\"\\u0001\",\"L(1)\":null,\"L(2)\":null,\"I\":null,\"halt\":null,\"loss\":null}\n";
    assert_eq!(written(&["--json"]), expected);
    let twice = hours(&["--json"], "x,I,x\na,1,b\n");
    assert_eq!((twice.status, twice.out.as_str()), (2, ""));
    assert!(
        twice
            .told
            .contains("two columns are named 'x', which cannot be in a JSON object"),
        "{}",
        twice.told
    );
}

#[test]
fn other_separators() {
    for (name, s) in [("semicolon", ";"), (";", ";"), ("tab", "\t"), ("comma", ",")] {
        let table = format!("day{s}I{s}note\nmon{s}7{s}\"a,b;c\td\"\n");
        let expected =
            format!("line{s}day{s}I.given{s}note{s}I{s}halt{s}loss\n2{s}mon{s}7{s}\"a,b;c\td\"{s}0{s}1{s}0\n");
        let ended = hours(&["--separator", name, "--only=I", "--keep-inputs"], &table);
        assert_eq!((ended.status, ended.out), (0, expected), "{name}");
    }
    let wrong = hours(&[], "day;I\nmon;7\n");
    assert!(
        wrong.told.ends_with("; --separator tells what parts them\n"),
        "{}",
        wrong.told
    );
}

#[test]
fn a_file_and_no_words() {
    let place = Path::new(env!("CARGO_TARGET_TMPDIR")).join("options.csv");
    fs::write(&place, "an older table").expect("a file");
    let ended = hours(&["--quiet", "-o", place.to_str().expect("a path")], TABLE);
    assert_eq!((ended.status, ended.out.as_str(), ended.told.as_str()), (3, "", ""));
    assert_eq!(fs::read_to_string(&place).expect("the table"), written(&[]));
    // A table that cannot be read to its end takes no place.
    let endless = format!("I\n1\n{}", ",".repeat(2_000_000));
    let ended = hours(&["--quiet", "-o", place.to_str().expect("a path")], &endless);
    assert_eq!(ended.status, 2);
    assert!(
        ended.told.starts_with("luvinqata: ") && ended.told.lines().count() == 1,
        "{}",
        ended.told
    );
    assert_eq!(fs::read_to_string(&place).expect("the table"), written(&[]));
}

/// `script` is a terminal: there is progress, and it is gone before the last words; not where the table itself is shown.
#[test]
fn progress_on_a_terminal() {
    let runner = std::env::var("CARGO_TARGET_X86_64_UNKNOWN_LINUX_GNU_RUNNER").unwrap_or_default();
    let place = Path::new(env!("CARGO_TARGET_TMPDIR")).join("progress.csv");
    let shown = |more: &str| {
        let hours = "hours examples/gale-hours.txt examples/gale-hours.csv";
        let line = format!("{runner} {LUVINQATA} {hours} {more}");
        let output = Command::new("script")
            .args(["-qec", &line, "/dev/null"])
            .current_dir(top(""))
            .output();
        String::from_utf8(output.expect("a terminal").stdout).expect("text")
    };
    let words = "8 hours done, 2 lost digits, 1 could not be read\r\n";
    let file = shown(&format!("-o {}", place.display()));
    assert!(
        file.contains("B of 66B") && file.contains(&format!("\x1b[2K{words}")),
        "{file}"
    );
    let screen = shown("");
    assert!(!screen.contains("B of 66B") && screen.contains(words), "{screen}");
    assert_eq!(shown(&format!("--quiet -o {}", place.display())), "");
}

/// Rows stay in their order, with any number of threads, and all that is told does too.
#[test]
fn many_threads_write_what_one_does() {
    let row = |row: i64| match row % 97 {
        0 => format!("{row},x\n"),
        _ => format!("{row},{}\n", row * 7_919 % 2_000 - 1_000),
    };
    let table = "row,I\n".to_string() + &(0..20_000).map(row).collect::<String>();
    let one = hours(&["--threads", "1", "--compare", "7"], &table);
    assert_eq!(one.out.lines().count(), 20_001);
    for threads in ["2", "3", "16"] {
        assert_eq!(
            hours(&["--threads", threads, "--compare", "7"], &table),
            one,
            "{threads}"
        );
    }
    assert_eq!(hours(&["--compare", "7"], &table), one);
}

/// Centre and colour of each dot, then the words.
fn drawn(picture: &str) -> (Vec<[String; 3]>, Vec<String>) {
    let attribute = |tag: &str, name: &str| {
        let value = tag.split_once(&format!(" {name}=\""));
        value
            .and_then(|(_, rest)| rest.split_once('"'))
            .map_or(String::new(), |(value, _)| value.to_string())
    };
    let dots = picture.split("<circle").skip(1);
    let dots = dots
        .map(|tag| ["cx", "cy", "fill"].map(|name| attribute(tag, name)))
        .collect();
    let words = picture.split("<text").skip(1);
    let word = |tag: &str| {
        tag.split_once('>')
            .and_then(|(_, rest)| rest.split_once('<'))
            .map(|(word, _)| word.trim().to_string())
    };
    (dots, words.filter_map(word).collect())
}

/// As README shows it. Another release of the crate that draws may write other lines and dots of the same places.
#[test]
fn the_picture_of_the_gale() {
    let place = Path::new(env!("CARGO_TARGET_TMPDIR")).join("gale.svg");
    let paths = [
        top("examples/gale-hours.txt"),
        top("examples/gale-hours.csv"),
        place.clone(),
    ];
    let [deck, table, chart] = paths.each_ref().map(|path| path.to_str().expect("a path"));
    let ended = luvinqata(&["hours", deck, table, "--quiet", "--chart", "KNOTS,KUBE", chart], b"");
    assert_eq!(ended.status, 3);
    let read = |path: &Path| fs::read_to_string(path).expect("a picture");
    let (dots, words) = drawn(&read(&place));
    assert_eq!(
        (&dots, &words),
        (
            &drawn(&read(&top("docs/gale.svg"))).0,
            &drawn(&read(&top("docs/gale.svg"))).1
        )
    );
    let red = dots.iter().filter(|dot| dot[2] == "#D21E1E").count();
    // Eight hours, and one dot of each sort beside its words.
    assert_eq!((dots.len(), red), (10, 3));
    for word in ["KNOTS", "KUBE", "exact", "digits lost"] {
        assert!(words.iter().any(|drawn| drawn == word), "{word}: {words:?}");
    }
}

#[test]
fn charts_of_other_columns() {
    let place = Path::new(env!("CARGO_TARGET_TMPDIR")).join("other.svg");
    let chart = |axes: &str, table: &str| {
        let ended = hours(
            &[
                "--quiet",
                "--only",
                "I",
                "--chart",
                axes,
                place.to_str().expect("a path"),
            ],
            table,
        );
        (
            ended.status,
            ended.told,
            drawn(&fs::read_to_string(&place).unwrap_or_default()).0.len(),
        )
    };
    let table = "hour,I\n0,1\n1.5,2\nnoon,3\n3,4\n";
    assert_eq!(
        chart("hour,L(2)", table),
        (0, String::new(), 3 + 2),
        "noon is no number"
    );
    assert_eq!(chart("line,I.given", table), (0, String::new(), 4 + 2));
    assert_eq!(chart("hour,I", "hour,I\n"), (0, String::new(), 2), "no hour at all");
    for (axes, words) in [
        ("I", "two columns"),
        ("I,J", "'J' is none of line, hour, I.given, L(1), L(2), I, halt, loss"),
    ] {
        let (status, told, _) = chart(axes, table);
        assert!(status == 2 && told.contains(words), "{told}");
    }
}
