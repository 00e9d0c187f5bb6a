//! Hard edges: files that are written over, inputs without end, hostile text, the wrong sort of file, a closed output.

mod common;

use std::fs;
use std::os::unix::fs::{symlink, FileTypeExt, PermissionsExt};
use std::path::{Path, PathBuf};
use std::process::{Command, Stdio};

use common::{file, luvinqata, top, LUVINQATA};

/// An empty folder of its own.
fn folder(name: &str) -> PathBuf {
    let folder = Path::new(env!("CARGO_TARGET_TMPDIR")).join(name);
    let _ = fs::remove_dir_all(&folder);
    fs::create_dir_all(&folder).expect("a folder");
    folder
}

fn text(path: &Path) -> &str {
    path.to_str().expect("a plain path")
}

#[test]
fn a_good_object_stays_until_there_is_a_new_one() {
    let folder = folder("objects");
    let (deck, object) = (folder.join("deck.txt"), folder.join("deck.object"));
    fs::write(&object, "a good object").expect("an object");
    fs::set_permissions(&object, fs::Permissions::from_mode(0o640)).expect("its rights");
    fs::write(&deck, "      A=1\n").expect("a deck");
    assert_eq!(luvinqata(&["compile", text(&deck), text(&object)], b"").status, 2);
    assert_eq!(fs::read(&object).expect("it is there"), b"a good object");
    fs::write(&deck, "      END\n").expect("a deck");
    assert_eq!(luvinqata(&["compile", text(&deck), text(&object)], b"").status, 0);
    assert_eq!(luvinqata(&["check", text(&object)], b"").out, "OK\n");
    assert_eq!(
        fs::metadata(&object).expect("it is there").permissions().mode() & 0o777,
        0o640
    );
    let linked = folder.join("linked");
    symlink(&object, &linked).expect("a link");
    assert_eq!(
        luvinqata(&["compile", text(&top("examples/gale.txt")), text(&linked)], b"").status,
        0
    );
    assert_eq!(fs::read(&object).expect("it is there").len(), 232);
    assert!(fs::symlink_metadata(&linked).expect("the link").is_symlink());
    let nowhere = folder.join("no/such/folder");
    assert_eq!(luvinqata(&["compile", text(&deck), text(&nowhere)], b"").status, 2);
    assert_eq!(
        fs::read_dir(&folder).expect("the folder").count(),
        3,
        "nothing is left beside"
    );
    assert_eq!(luvinqata(&["compile", text(&deck), "/dev/null"], b"").status, 0);
    let null = fs::metadata("/dev/null").expect("the device");
    assert!(null.file_type().is_char_device());
    // The prover's gate refuses a link anywhere below the top.
    fs::remove_file(&linked).expect("the link");
}

#[test]
fn what_is_read_is_not_written_over() {
    let folder = folder("over");
    let (deck, table) = (folder.join("deck.txt"), folder.join("table.csv"));
    fs::copy(top("examples/gale-hours.txt"), &deck).expect("a deck");
    fs::copy(top("examples/gale-hours.csv"), &table).expect("a table");
    let (hard, soft) = (folder.join("hard"), folder.join("soft"));
    fs::hard_link(&deck, &hard).expect("a link");
    symlink(&table, &soft).expect("a link");
    let (read_deck, read_table) = (fs::read(&deck).expect("a deck"), fs::read(&table).expect("a table"));
    let chart = folder.join("chart.svg");
    let (compile, hours) = (["compile", text(&deck)], ["hours", text(&deck), text(&table)]);
    let picture = ["--chart", "KNOTS,KUBE"];
    let cases: [Vec<&str>; 6] = [
        [&compile[..], &[text(&deck)]].concat(),
        [&compile[..], &[text(&hard)]].concat(),
        [&hours[..], &["-o", text(&deck)]].concat(),
        [&hours[..], &["-o", text(&soft)]].concat(),
        [&hours[..], &picture, &[text(&table)]].concat(),
        [&hours[..], &picture, &[text(&chart), "-o", text(&chart)]].concat(),
    ];
    for arguments in cases {
        let ended = luvinqata(&arguments, b"");
        assert_eq!(ended.status & 2, 2, "{arguments:?}");
        assert!(
            ended.told.contains("would be written over"),
            "{arguments:?}: {}",
            ended.told
        );
        assert_eq!(fs::read(&deck).expect("a deck"), read_deck, "{arguments:?}");
        assert_eq!(fs::read(&table).expect("a table"), read_table, "{arguments:?}");
    }
    // The prover's gate refuses a link anywhere below the top.
    fs::remove_file(&soft).expect("the link");
}

#[test]
fn inputs_have_an_end() {
    let gale = top("examples/gale-hours.txt");
    let deck = "luvinqata: /dev/zero: over 131072 bytes, longer than any deck\n";
    assert_eq!(luvinqata(&["run", "/dev/zero"], b"").told, deck);
    assert_eq!(luvinqata(&["hours", "/dev/zero", "-"], b"").told, deck);
    let object = "luvinqata: /dev/zero: over 131072 bytes, longer than any object\n";
    assert_eq!(luvinqata(&["check", "/dev/zero"], b"").told, object);
    assert_eq!(luvinqata(&["map", "/dev/zero"], b"").told, object);
    let longest = file("edges.longest", &[0; luvinqata::LONGEST_OBJECT]);
    assert_eq!(luvinqata(&["check", text(&longest)], b"").out, "REFUSED 40 0 0\n");
    let table = luvinqata(&["hours", text(&gale), "/dev/zero"], b"");
    assert!(
        table.told.contains("line 1, column 1: a row of over 1048576 bytes"),
        "{}",
        table.told
    );
    assert_eq!((table.status, table.out.as_str()), (2, ""));
    // Line ends without number are no cards, whatever they would be punched to.
    let ended = luvinqata(&["run", "-"], &b"\n".repeat(60_000));
    assert_eq!((ended.status, ended.out.as_str()), (2, "REFUSED 2 0\n"));
    let mut cards = b"\n".repeat(60_000);
    cards.extend(b"      END\n");
    assert_eq!(luvinqata(&["run", "-"], &cards).out, "REFUSED 2 0\n");
    // What was run before a row without end stays.
    let mut rows = b"KNOTS\n12\n47\n".to_vec();
    rows.extend(b",".repeat(3_000_000));
    let ended = luvinqata(&["hours", text(&gale), "-"], &rows);
    assert_eq!(ended.status, 3);
    assert_eq!(
        ended.out,
        "line,KUBE,KNOTS,MEAN,halt,loss\n2,1728,12,172,1,0\n3,3823,47,382,1,1\n"
    );
    assert!(ended.told.contains("luvinqata: -: line 4, column "), "{}", ended.told);
}

/// Half a million columns are told in a line, and take no more time than they are long.
#[test]
fn a_table_may_be_wide() {
    let gale = top("examples/gale-hours.txt");
    let (wide, digits) = (",".repeat(500_000), ",1".repeat(500_000));
    let table = format!("KNOTS{wide}\n12{digits}\n");
    let ended = luvinqata(&["hours", text(&gale), "-"], table.as_bytes());
    assert_eq!(ended.status, 0, "{}", ended.told);
    let row = ended.out.lines().nth(1).expect("a row");
    assert!(row.starts_with("2,1,1,") && row.ends_with(",1,1,1728,12,172,1,0"));
    let copied = "'', '', '' and 499988 more are no values of the deck: they are copied as they are\n";
    assert!(ended.told.contains(copied) && ended.told.len() < 300, "{}", ended.told);
}

#[test]
fn a_request_has_an_end() {
    let mut requests = b"check ".to_vec();
    requests.extend(b"00".repeat(5_000_000));
    requests.extend(b"\ncheck 00\ncheck ");
    requests.extend(b"00".repeat(524_285));
    requests.extend(b"\n");
    let ended = luvinqata(&["batch"], &requests);
    assert_eq!(ended.out, "BAD REQUEST\nREFUSED 40 0 0\nREFUSED 40 0 0\n");
}

/// Nothing that a terminal obeys, and no line without end.
#[test]
fn text_of_others_is_made_safe() {
    let gale = top("examples/gale-hours.txt");
    let long = "x".repeat(100_000);
    let table = format!("KNOTS,\x1b]0;owned\x07,{long}\n\x1b[2J,a,b\n{long},a,b\n\u{202e}1,a,b\n1,a,b\n");
    let ended = luvinqata(&["hours", text(&gale), "-"], table.as_bytes());
    let safe = |c: char| c == '\n' || !c.is_control() && c != '\u{202e}';
    assert!(ended.told.chars().all(safe), "{}", ended.told);
    assert!(ended.told.lines().all(|line| line.len() < 200), "{}", ended.told);
    for words in [
        "'\\u{1b}]0;owned\\u{7}'",
        "KNOTS: '\\u{1b}[2J' is no",
        "KNOTS: '\\u{202e}1' is no",
        "xxx...'",
    ] {
        assert!(ended.told.contains(words), "{words}: {}", ended.told);
    }
    for (arguments, deck) in [(["run", "-"], "      I=\x1b[2J\n"), (["run", "no/\x1b[2J"], "")] {
        let ended = luvinqata(&arguments, deck.as_bytes());
        assert!(ended.status == 2 && ended.told.chars().all(safe), "{}", ended.told);
    }
}

#[test]
fn the_wrong_sort_of_file() {
    let (gale, table) = (top("examples/gale.txt"), top("examples/gale-hours.csv"));
    let object = file("edges.object", b"");
    assert_eq!(luvinqata(&["compile", text(&gale), text(&object)], b"").status, 0);
    let second = file("edges.object-2", &[2, 0, 0, 0]);
    for object in [&object, &second] {
        let no_deck = format!(
            "luvinqata: {}: it is an object, and no deck: 'luvinqata check' and 'luvinqata map' take objects\n",
            object.display()
        );
        for arguments in [
            &["run", text(object)][..],
            &["compile", text(object)],
            &["run", "--text", text(object)],
            &["hours", text(object), text(&table)],
        ] {
            let ended = luvinqata(arguments, b"");
            assert_eq!(
                (ended.status, ended.out.as_str(), ended.told.as_str()),
                (2, "", no_deck.as_str())
            );
        }
    }
    let cards = luvinqata::punch(&fs::read(&gale).expect("the gale")).expect("short lines");
    let cards = file("edges.cards", &cards);
    for (subcommand, deck) in [("check", &gale), ("map", &gale), ("check", &cards)] {
        let ended = luvinqata(&[subcommand, text(deck)], b"");
        assert_eq!((ended.status, ended.out.as_str()), (2, ""));
        assert!(ended
            .told
            .contains("it is text, as a deck is, and no object: 'luvinqata compile'"));
    }
}

#[test]
fn blank_lines_at_the_end_are_no_cards() {
    let right = luvinqata(&["run", "-"], b"      I=7\n      END\n");
    assert_eq!(right.status, 0);
    for deck in [
        "      I=7\n      END\n\n",
        "      I=7\r\n      END\r\n\r\n  \r\n",
        "      I=7\n      END\n   ",
    ] {
        assert_eq!(luvinqata(&["run", "-"], deck.as_bytes()), right, "{deck:?}");
    }
    assert_eq!(
        luvinqata(&["run", "-"], b"      I=7\n\n      END\n").out,
        "REFUSED 6 2\n"
    );
}

/// Standard output is closed before the command is started.
#[test]
fn a_closed_output_is_told() {
    let runner = std::env::var("CARGO_TARGET_X86_64_UNKNOWN_LINUX_GNU_RUNNER").unwrap_or_default();
    let closed = |arguments: &str| {
        let line = format!("{runner} {LUVINQATA} {arguments} >&-");
        let child = Command::new("sh")
            .args(["-c", &line])
            .current_dir(top(""))
            .stderr(Stdio::piped())
            .output();
        let output = child.expect("a shell");
        (output.status.code(), String::from_utf8(output.stderr).expect("text"))
    };
    let words = "luvinqata: standard output: it is closed\n";
    let (status, told) = closed("run examples/sums.txt");
    assert_eq!((status, told.as_str()), (Some(2), words));
    assert_eq!(closed("--help").0, Some(2));
    let (status, told) = closed("run examples/gale.txt");
    assert_eq!(status, Some(3));
    assert!(told.starts_with(words) && told.contains("digits were lost"), "{told}");
    let place = folder("closed").join("hours.csv");
    let hours = format!(
        "hours examples/gale-hours.txt examples/gale-hours.csv --quiet -o {}",
        place.display()
    );
    assert_eq!(closed(&hours), (Some(3), String::new()), "standard output is not used");
    assert_eq!(fs::read_to_string(&place).expect("the table").lines().count(), 10);
}
