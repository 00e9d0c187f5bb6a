//! Outputs that cannot be written, and inputs that are not as they should be.

mod common;

use std::fs::File;
use std::path::Path;
use std::process::Stdio;

use common::{finish, luvinqata, start, top, Ended, LUVINQATA};

/// It takes no byte.
fn full() -> Stdio {
    File::options()
        .write(true)
        .open("/dev/full")
        .expect("the device")
        .into()
}

fn with(arguments: &[&str], input: &[u8], out: Stdio, told: Stdio) -> Ended {
    finish(start(Path::new(LUVINQATA), arguments, out, told), input)
}

/// Standard output is closed before there is any input.
fn closed(arguments: &[&str], input: &[u8]) -> Ended {
    let mut child = start(Path::new(LUVINQATA), arguments, Stdio::piped(), Stdio::piped());
    drop(child.stdout.take());
    finish(child, input)
}

#[test]
fn outputs_that_cannot_be_written() {
    let gale = top("examples/gale-hours.txt");
    let gale = gale.to_str().expect("a plain path");
    let cases: [(&[&str], &[u8], i32); 6] = [
        (&["run", "-"], b"      I=47*47*47\n      END\n", 1),
        (&["run", "-"], b"      A=1\n", 2),
        (&["compile", "-"], b"      END\n", 0),
        (&["check", "-"], b"no object\0", 2),
        (&["hours", gale, "-"], b"KNOTS\n12\n47\n", 1),
        (&["batch"], b"check 00\n", 0),
    ];
    for (arguments, input, status) in cases {
        let well = luvinqata(arguments, input);
        assert_eq!(well.status, status, "{arguments:?}");
        let untold = with(arguments, input, Stdio::piped(), full());
        assert_eq!((untold.status, &untold.out), (status, &well.out), "{arguments:?}");
        let unread = closed(arguments, input);
        assert_eq!((unread.status, &unread.told), (status | 2, &well.told), "{arguments:?}");
        let unwritten = with(arguments, input, full(), Stdio::piped());
        let words = "luvinqata: standard output: No space left on device (os error 28)\n";
        assert_eq!(unwritten.status, status | 2, "{arguments:?}");
        assert_eq!(unwritten.told, format!("{words}{}", well.told), "{arguments:?}");
        assert_eq!(
            with(arguments, input, full(), full()).status,
            status | 2,
            "{arguments:?}"
        );
    }
    // Where nobody reads the rows, the rest of a long table is not run: its last row is not told.
    let table = format!("KNOTS\n{}x\n", "47\n".repeat(5_000));
    let ended = closed(&["hours", gale, "-"], table.as_bytes());
    assert_eq!((ended.status, ended.told.as_str()), (3, ""));
}

#[test]
fn inputs_that_are_odd() {
    let ended = |status, out: &str, told: &str| Ended {
        status,
        out: out.to_string(),
        told: told.to_string(),
    };
    let (gale, folder) = (top("examples/gale-hours.txt"), top("examples"));
    let (gale, folder) = (gale.to_str().expect("a path"), folder.to_str().expect("a path"));
    let directory = format!("luvinqata: {folder}: Is a directory (os error 21)\n");
    let cases: [(&[&str], &[u8], Ended); 4] = [
        (&["run", folder], b"", ended(2, "", &directory)),
        (&["hours", gale, folder], b"", ended(2, "", &directory)),
        (
            &["run", "-"],
            b"\xEF\xBB\xBF      I=7\n      END\n",
            ended(0, "HALT 1 STEPS 3 DROP 0\nI 7\n", ""),
        ),
        (
            &["hours", gale, "-"],
            b"KNOTS\n\xFF\n9\n",
            ended(
                2,
                "line,KUBE,KNOTS,MEAN,halt,loss\n2,,,,,\n3,729,9,72,1,0\n",
                "line 2: KNOTS: no UTF-8 text\n1 hours done, 0 lost digits, 1 could not be read\n",
            ),
        ),
    ];
    for (arguments, input, expected) in cases {
        assert_eq!(luvinqata(arguments, input), expected, "{arguments:?}");
    }
}

/// The object, and nothing else.
#[test]
fn an_object_on_standard_output() {
    let ended = luvinqata(&["compile", "-", "-"], b"      END\n");
    let object = luvinqata::compile_to_vec(5, &luvinqata::punch(b"      END").expect("a short line")).expect("a deck");
    assert_eq!((ended.status, ended.told.as_str()), (0, ""));
    assert_eq!(ended.out.as_bytes(), object);
}
