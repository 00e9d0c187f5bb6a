//! Numbers in fields of cards and lines (02, 2026-01).

use crate::lent::Trouble;
use crate::number::fits;

/// "right-justified, blanks before, a minus just before the first digit, no plus, 0 as `0`. If digits and minus do not
/// fit: asterisks across the width". The columns are blank.
pub fn print(value: i64, columns: &mut [u8]) {
    let mut left = value.unsigned_abs();
    let mut at = columns.len();
    loop {
        let Some(before) = at.checked_sub(1) else {
            return columns.fill(b'*');
        };
        at = before;
        columns[at] = b'0' + (left % 10) as u8;
        left /= 10;
        if left == 0 {
            break;
        }
    }
    if value < 0 {
        match at.checked_sub(1) {
            Some(before) => columns[before] = b'-',
            None => columns.fill(b'*'),
        }
    }
}

/// "blanks, then `+`, `-` or nothing, then digits, then blanks to the field's end, each counting as a 0. All blank is 0.
/// `@` is a minus too." Its digits are counted "by value, so leading zeros are free".
pub fn read(k: u32, columns: &[u8]) -> Result<i64, Trouble> {
    let Some(start) = columns.iter().position(|c| *c != b' ') else {
        return Ok(0);
    };
    let (minus, number) = match columns[start] {
        b'-' | b'@' => (true, &columns[start + 1..]),
        b'+' => (false, &columns[start + 1..]),
        _ => (false, &columns[start..]),
    };
    let digits = number.iter().take_while(|c| c.is_ascii_digit()).count();
    if digits == 0 || number[digits..].iter().any(|c| *c != b' ') {
        return Err(Trouble::NoNumber);
    }
    let mut value = 0i64;
    for c in number {
        let digit = if *c == b' ' { 0 } else { i64::from(c - b'0') };
        value = value * 10 + digit;
        if !fits(k, i128::from(value)) {
            return Err(Trouble::TooLong);
        }
    }
    Ok(if minus { -value } else { value })
}

#[cfg(test)]
mod tests {
    use super::*;

    fn printed(value: i64, width: usize) -> String {
        let mut columns = vec![b' '; width];
        print(value, &mut columns);
        columns.into_iter().map(char::from).collect()
    }

    /// "Printing what a field can hold and reading it back gives the same number", and what it cannot hold is asterisks.
    #[test]
    fn what_is_printed_is_read_back() {
        for k in 1..=9 {
            let most = 10i64.pow(k) - 1;
            for value in [0, 1, -1, 7, -9, most, -most, most / 7, -most / 3] {
                let written = value.to_string();
                for width in 1..=12 {
                    let line = printed(value, width);
                    if written.len() <= width {
                        assert_eq!(line, format!("{written:>width$}"));
                        assert_eq!(read(k, line.as_bytes()), Ok(value));
                    } else {
                        assert_eq!(line, "*".repeat(width));
                        assert_eq!(read(k, line.as_bytes()), Err(Trouble::NoNumber));
                    }
                }
            }
        }
    }

    #[test]
    fn fields_as_punched() {
        let cases: [(&[u8], Result<i64, Trouble>); 19] = [
            (b"", Ok(0)),
            (b"   ", Ok(0)),
            (b"  7", Ok(7)),
            (b"7  ", Ok(700)),
            (b" +7", Ok(7)),
            (b"-07", Ok(-7)),
            (b"@07", Ok(-7)),
            (b"-0", Ok(0)),
            (b"-3 ", Ok(-30)),
            (b"0012345", Ok(12345)),
            (b"100000", Err(Trouble::TooLong)),
            (b"1     ", Err(Trouble::TooLong)),
            (b"99999999999999999999", Err(Trouble::TooLong)),
            (b"1 2", Err(Trouble::NoNumber)),
            (b"- 2", Err(Trouble::NoNumber)),
            (b"  -", Err(Trouble::NoNumber)),
            (b"--2", Err(Trouble::NoNumber)),
            (b"1.5", Err(Trouble::NoNumber)),
            (b"2\xFF", Err(Trouble::NoNumber)),
        ];
        for (columns, expected) in cases {
            assert_eq!(read(5, columns), expected, "{columns:?}");
        }
    }
}
