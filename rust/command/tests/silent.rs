//! Nothing wrong goes by in silence: how runs end, values that nothing gives, columns that are not read, rows that differ.

mod common;

use common::{file, luvinqata, top, Ended};

fn ended(status: i32, out: &str, told: &str) -> Ended {
    Ended {
        status,
        out: out.to_string(),
        told: told.to_string(),
    }
}

/// Digits are lost at one card, and the run stops at another.
#[test]
fn the_status_is_a_sum_and_both_cards_are_shown() {
    let deck = b"      I=99999+1\n      J=7\n      K=J/I\n      END\n";
    let told = "halt 3: division by zero, at statement 3:\ncard   3 |      K=J/I\n\
                digits were lost, first at statement 1:\ncard   1 |      I=99999+1\n";
    let out = "HALT 3 STEPS 9 DROP 1\nI 0\nJ 7\nK 0\n";
    assert_eq!(luvinqata(&["run", "-"], deck), ended(5, out, told));
    let told = "halt 2: the steps allowed are used up, at statement 2:\ncard   2 |      J=7\n\
                digits were lost, first at statement 1:\ncard   1 |      I=99999+1\n";
    let out = "HALT 2 STEPS 4 DROP 1\nI 0\nJ 0\nK 0\n";
    assert_eq!(luvinqata(&["run", "-", "--steps", "4"], deck), ended(5, out, told));
}

#[test]
fn hours_that_stop_are_told_by_statement() {
    let deck = file(
        "stops.txt",
        b"      DIMENSION L(3)\n      K=M*1000\n      L(N)=K\n      I=K/N\n      END\n",
    );
    let table = b"M,N\n1,1\n100,2\n100,4\n1,0\nx,1\n99,-1\n";
    let told = "line 6: M: 'x' is no whole number\n\
                5 hours done, 2 lost digits, 1 could not be read, 3 did not reach STOP or END\n\
                digits were lost in 2, first at statement 2:\ncard   2 |      K=M*1000\n\
                3 stopped by halt 4: a subscript is not from 1 to its dimension, at statement 3:\n\
                card   3 |      L(N)=K\n";
    let hours = luvinqata(&["hours".as_ref(), deck.as_os_str(), "-".as_ref()], table);
    assert_eq!((hours.status, hours.told.as_str()), (7, told));
    let rows: Vec<&str> = hours.out.lines().collect();
    assert_eq!(rows[0], "line,L(1),L(2),L(3),K,M,N,I,halt,loss");
    assert_eq!(
        rows[3..=5],
        ["4,0,0,0,0,100,4,0,4,2", "5,0,0,0,1000,1,0,0,4,0", "6,,,,,,,,,"]
    );
}

const SET: [&str; 4] = ["--set=L(2)=5", "--set=M(1)=7", "--set=M(2)=8", "--set=M(3)=-9"];

/// A deck that reads elements and plain values that it never sets.
fn unset(name: &str, more: &[&str], table: &[u8]) -> Ended {
    let deck = b"      DIMENSION L(2),M(3)\n      I=I+L(2)+M(J)\n      K=KNOTS\n      END\n";
    let deck = file(name, deck);
    let mut arguments: Vec<&str> = vec!["hours", deck.to_str().expect("a path"), "-"];
    arguments.extend(more);
    luvinqata(&arguments, table)
}

#[test]
fn a_value_that_nothing_gives_is_named() {
    let hours = |more: &[&str], table: &[u8]| unset("unset.txt", more, table);
    let missing = hours(&[], b"I,KNOTS\n1,2\n");
    assert_eq!((missing.status, missing.out.as_str()), (2, ""));
    assert_eq!(
        missing.told,
        "luvinqata: -: no column gives L(2), M(1) and 3 more, which the deck reads and never sets: \
         '--set L(2)=VALUE' gives it for all rows\n"
    );
    let missing = hours(&SET, b"I,KNOTS\n1,2\n");
    let words = "no column gives J, which the deck reads and never sets";
    assert!(missing.told.contains(words), "{}", missing.told);
    let given = hours(&SET, b"I,KNOTS,J\n1,2,3\n1,2,1\n");
    let rows: Vec<&str> = given.out.lines().skip(1).collect();
    assert_eq!(
        (given.status, rows),
        (0, vec!["2,0,5,7,8,-9,-3,3,2,2,1,0", "3,0,5,7,8,-9,13,1,2,2,1,0"])
    );
}

#[test]
fn values_that_cannot_be_given() {
    for (more, words) in [
        ("--set=J=1", "J is given by a column and by --set"),
        ("--set=L(2)=1", "--set gives L(2) twice"),
        (
            "--set=KNOT=1",
            "--set KNOT: no value of the deck, which has L(2), M(3), I, J, K, KNOTS",
        ),
        ("--set=knots=1", "--set knots: no value of the deck; KNOTS is one"),
        ("--set=K=123456", "--set K=123456: over 5 digits"),
    ] {
        let wrong = unset("given.txt", &[&SET[..], &[more]].concat(), b"I,KNOTS,J\n1,2,3\n");
        assert_eq!((wrong.status, wrong.out.as_str()), (2, ""), "{words}");
        assert!(wrong.told.ends_with(&format!("{words}\n")), "{}", wrong.told);
    }
}

/// 01's program takes 0 for it; so does `run`, and says so.
#[test]
fn run_tells_what_it_takes_0_for() {
    let gale = top("examples/gale-hours.txt");
    let run = |more: &[&str]| {
        let mut arguments: Vec<&str> = vec!["run", gale.to_str().expect("a path")];
        arguments.extend(more);
        luvinqata(&arguments, b"")
    };
    let told = "0 is taken for what the deck reads and never sets: KNOTS; '--set KNOTS=VALUE' gives it\n";
    assert_eq!(
        run(&[]),
        ended(0, "HALT 1 STEPS 11 DROP 0\nKUBE 0\nKNOTS 0\nMEAN 0\n", told)
    );
    assert_eq!(
        run(&["--set", "KNOTS=12"]),
        ended(0, "HALT 1 STEPS 11 DROP 0\nKUBE 1728\nKNOTS 12\nMEAN 172\n", "")
    );
    assert_eq!(run(&["--set", "KNOTS=-100000"]).status, 2);
}

#[test]
fn a_header_that_differs_only_in_case() {
    let gale = top("examples/gale-hours.txt");
    let hours = luvinqata(
        &["hours".as_ref(), gale.as_os_str(), "-".as_ref()],
        b"KUBE,Knots\n0,12\n",
    );
    assert_eq!(
        hours.told,
        "column 'Knots' differs from the deck's KNOTS only in case or blanks: it gives no value and is copied\n\
         luvinqata: -: no column gives KNOTS, which the deck reads and never sets: \
         '--set KNOTS=VALUE' gives it for all rows\n"
    );
    assert_eq!((hours.status, hours.out.as_str()), (2, ""));
}

#[test]
fn what_stands_past_column_72_is_told() {
    let card = |text: &str, past: &str| format!("{text:72}{past}\n");
    let deck = card("      I=1", "00000010") + &card("      J=2", "+I") + &card("C", "PAST") + &card("      END", "");
    let ran = luvinqata(&["run", "-"], deck.as_bytes());
    let out = "HALT 1 STEPS 5 DROP 0\nI 1\nJ 2\n";
    assert_eq!(ran, ended(0, out, "card 2: '+I' past column 72 is not read\n"));
    let deck = card("      I=1", "GALE0010") + &card("      J=2", "GALE0020") + &card("      END", "GALE0030");
    let told = "card 1: 'GALE0010' past column 72 is not read, nor is what stands there on 2 more\n";
    assert_eq!(luvinqata(&["run", "-"], deck.as_bytes()), ended(0, out, told));
    assert_eq!(luvinqata(&["compile", "-"], deck.as_bytes()).told, told);
}

#[test]
fn rows_that_differ_with_more_digits() {
    let gale = top("examples/gale-hours.txt");
    let arguments = ["hours".as_ref(), gale.as_os_str(), "-".as_ref(), "--compare=9".as_ref()];
    let hours = luvinqata(&arguments, b"KNOTS\n46\n47\n");
    assert_eq!(
        hours.out,
        "line,KUBE,KNOTS,MEAN,halt,loss\n2,97336,46,9733,1,0\n3,3823,47,382,1,1\n"
    );
    assert_eq!(
        hours.told,
        "line 3: with 9 digits KUBE is 103823, not 3823; MEAN is 10382, not 382\n\
         2 hours done, 1 lost digits, 0 could not be read, 1 differ with 9 digits\n\
         digits were lost in 1, first at statement 1:\ncard   4 |      KUBE=KNOTS*KNOTS*KNOTS\n"
    );
    // An IF goes another way, and there is no end; six digits are too few to see it.
    let deck = file(
        "turns.txt",
        b"   10 K=I*I\n      IF(K)10,20,10\n   20 STOP\n      END\n",
    );
    let compare = |digits: &str| {
        let digits = format!("--compare={digits}");
        let arguments = ["hours".as_ref(), deck.as_os_str(), "-".as_ref(), digits.as_ref()];
        luvinqata(&arguments, b"I\n0\n1000\n")
    };
    let six = compare("6");
    assert_eq!((six.status, six.out.lines().nth(2)), (1, Some("3,0,1000,0,1")));
    assert!(six.told.contains(", 0 differ with 6 digits\n"), "{}", six.told);
    let seven = compare("7").told;
    assert!(
        seven.contains("line 3: with 7 digits K is 1000000, not 0; the halt is 2, not 0\n"),
        "{seven}"
    );
}

/// With its copied columns as far as they can be read.
#[test]
fn a_row_that_cannot_be_read_stays() {
    let gale = top("examples/gale-hours.txt");
    let table = b"day,KNOTS,note\n1,12,calm\n2,,gusts\n3\n4,7,a,b\n5,x\xFF,late\n\xFF,7,odd\n7,\"1\"2,end\n8,9,\"far\n";
    let hours = luvinqata(&["hours".as_ref(), gale.as_os_str(), "-".as_ref()], table);
    let rows: Vec<&str> = hours.out.lines().skip(1).collect();
    let expected = [
        "2,1,calm,1728,12,172,1,0",
        "3,2,gusts,,,,,",
        "4,3,,,,,,",
        "5,4,a,,,,,",
        "6,5,late,,,,,",
        "7,,odd,,,,,",
        "8,7,,,,,,",
        "9,8,,,,,,",
    ];
    assert_eq!((hours.status, rows), (2, expected.to_vec()));
    let told: Vec<&str> = hours.told.lines().skip(1).collect();
    let expected = [
        "line 3: KNOTS: '' is no whole number",
        "line 4: KNOTS: no field, the row has 1 of 3",
        "line 5: 4 fields, and note is the last of 3 columns",
        "line 6: KNOTS: no UTF-8 text",
        "line 7: day: no UTF-8 text",
        "line 8: KNOTS: a quote stands amid a field",
        "line 9: note: a quote is not closed",
        "1 hours done, 0 lost digits, 7 could not be read",
    ];
    assert_eq!(told, expected);
}
