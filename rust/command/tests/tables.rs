//! `hours` on tables as people write them.

mod common;

use common::{file, luvinqata, top, Ended};

#[test]
fn the_gale_by_hours() {
    let (deck, table) = (top("examples/gale-hours.txt"), top("examples/gale-hours.csv"));
    let ended = luvinqata(&["hours".as_ref(), deck.as_os_str(), table.as_os_str()], b"");
    assert_eq!(ended.status, 3);
    let odd: Vec<&str> = ended.out.lines().skip(1).filter(|row| !row.ends_with(",0")).collect();
    assert_eq!(odd, ["6,04,3823,47,382,1,1", "7,05,40608,52,4060,1,1", "9,07,,,,,"]);
    assert_eq!(
        ended.told,
        "column 'hour' is no value of the deck: it is copied as it is\n\
         line 9: KNOTS: 'n/a' is no whole number\n\
         8 hours done, 2 lost digits, 1 could not be read\n\
         digits were lost in 2, first at statement 1:\n\
         card   4 |      KUBE=KNOTS*KNOTS*KNOTS\n"
    );
}

/// Tables for the gale's deck, and below the header that it gives them: status, rows, words.
const TABLES: [(&str, i32, &str, &str); 8] = [
    (
        "KNOTS\n12\n",
        0,
        "2,1728,12,172,1,0\n",
        "1 hours done, 0 lost digits, 0 could not be read\n",
    ),
    (
        "\u{feff}\"KNOTS\"\r\n\r\n9\r\n",
        0,
        "3,729,9,72,1,0\n",
        "1 hours done, 0 lost digits, 0 could not be read\n",
    ),
    (
        "KNOTS\n47\n",
        1,
        "2,3823,47,382,1,1\n",
        "1 hours done, 1 lost digits, 0 could not be read\ndigits were lost in 1, first at statement 1:\n\
         card   4 |      KUBE=KNOTS*KNOTS*KNOTS\n",
    ),
    (
        "KNOTS\n1,2\n100000\n\n5\"\n-9223372036854775808\n9223372036854775808\n\n-3\n",
        2,
        "2,,,,,\n3,,,,,\n5,,,,,\n6,,,,,\n7,,,,,\n9,-27,-3,-2,1,0\n",
        "line 2: 2 fields, and KNOTS is the last of 1 columns\nline 3: KNOTS: 100000 is over 5 digits\n\
         line 5: KNOTS: a quote stands amid a field\nline 6: KNOTS: -9223372036854775808 is over 5 digits\n\
         line 7: KNOTS: '9223372036854775808' is too large\n1 hours done, 0 lost digits, 5 could not be read\n",
    ),
    // A row of three lines, and one that takes the rest of the table.
    (
        "x,KNOTS\n\"a\n5,6\n\",3\nb,\"2\nb,4\n",
        2,
        "2,\"a\n5,6\n\",27,3,2,1,0\n5,b,,,,,\n",
        "column 'x' is no value of the deck: it is copied as it is\nline 5: KNOTS: a quote is not closed\n\
         1 hours done, 0 lost digits, 1 could not be read\n",
    ),
    (
        "x,KNOTS,x\na,3,b\n",
        0,
        "2,a,b,27,3,2,1,0\n",
        "columns 'x', 'x' are no values of the deck: they are copied as they are\n\
         1 hours done, 0 lost digits, 0 could not be read\n",
    ),
    (
        "KNOTS,KNOTS\n1,2\n",
        2,
        "",
        "luvinqata: -: two columns are named 'KNOTS'\n",
    ),
    (
        "\"KNOTS\n1\n",
        2,
        "",
        "luvinqata: -: line 1: column 1: a quote is not closed\n",
    ),
];

fn gale(table: &str) -> Ended {
    let deck = top("examples/gale-hours.txt");
    luvinqata(&["hours".as_ref(), deck.as_os_str(), "-".as_ref()], table.as_bytes())
}

#[test]
fn tables_as_they_come() {
    for (table, status, rows, told) in TABLES {
        let ended = gale(table);
        assert_eq!((ended.status, ended.told.as_str()), (status, told), "{table}");
        assert_eq!(ended.out.split_once('\n').map_or("", |(_, rows)| rows), rows, "{table}");
    }
}

#[test]
fn tables_that_give_nothing() {
    for own in ["line", "halt", "loss"] {
        let ended = gale(&format!("KNOTS,{own}\n1,2\n"));
        assert_eq!((ended.status, ended.out.as_str()), (2, ""));
        let words = format!("a column is named '{own}'");
        assert!(ended.told.contains(&words), "{}", ended.told);
    }
    for nothing in ["", "\n1\n", "x\n1\n"] {
        let ended = gale(nothing);
        assert_eq!((ended.status, ended.out.as_str()), (2, ""));
        let words = "no value of the deck, which has KUBE, KNOTS, MEAN";
        assert!(ended.told.contains(words), "{}", ended.told);
    }
}

#[test]
fn decks_of_tables() {
    let table = file("elements.csv", b"\"L(2,1)\",J\n6,0\n6,4\n");
    let hours = |deck: &[u8]| luvinqata(&["hours".as_ref(), "-".as_ref(), table.as_os_str()], deck);
    let ended = hours(b"      DIMENSION L(2,1)\n      L(1,1)=L(2,1)/J\n      END\n");
    assert_eq!(ended.status, 4);
    assert_eq!(
        ended.out,
        "line,\"L(1,1)\",\"L(2,1)\",J,halt,loss\n2,0,6,0,3,0\n3,1,6,4,1,0\n"
    );
    assert_eq!(
        ended.told,
        "2 hours done, 0 lost digits, 0 could not be read, 1 did not reach STOP or END\n\
         1 stopped by halt 3: division by zero, at statement 2:\n\
         card   2 |      L(1,1)=L(2,1)/J\n"
    );
    let none = hours(b"      DIMENSION M(7),N(2,3)\n      I=1\n      END\n");
    assert!(none.told.ends_with("which has M(7), N(2,3), I\n"), "{}", none.told);
    let refused = hours(b"      A=1\n");
    assert_eq!((refused.status, refused.out.as_str()), (2, ""));
    assert!(refused.told.starts_with("refused 11: card 1, column 7: "));
}
