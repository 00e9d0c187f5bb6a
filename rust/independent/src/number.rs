//! Numbers of k decimal digits.

/// "Digits k are 1 to 9."
pub fn digits_right(k: u32) -> bool {
    (1..=9).contains(&k)
}

/// 10^k, for a right k.
pub fn power(k: u32) -> i128 {
    const POWERS: [i64; 10] = [
        1,
        10,
        100,
        1_000,
        10_000,
        100_000,
        1_000_000,
        10_000_000,
        100_000_000,
        1_000_000_000,
    ];
    i128::from(POWERS[k as usize])
}

/// Whether a number has at most k digits.
pub fn fits(k: u32, value: i128) -> bool {
    value.abs() < power(k)
}

/// "A result of + - * keeps its sign and its k low decimal digits; if the exact magnitude is
/// 10^k or more, digits are dropped. Zero has no sign."
pub fn keep(k: u32, exact: i128) -> (i64, bool) {
    // The remainder of a division that cuts toward zero has the sign of the number divided.
    ((exact % power(k)) as i64, !fits(k, exact))
}

/// The same where the power is known and the exact number is one of `+ - *` of two numbers that fit.
pub fn keep_near(power: i64, exact: i64) -> (i64, bool) {
    if exact.abs() < power {
        (exact, false)
    } else {
        (exact % power, true)
    }
}

#[cfg(test)]
mod tests {
    use super::*;

    /// The sentence above, on the number as it is written down.
    fn keep_as_written(k: u32, exact: i128) -> (i64, bool) {
        let written = exact.unsigned_abs().to_string();
        let kept = &written[written.len().saturating_sub(k as usize)..];
        let low: i64 = kept.parse().unwrap();
        (if exact < 0 { -low } else { low }, written.len() > k as usize)
    }

    #[test]
    fn keeping_is_cutting_the_written_number() {
        for k in 1..=9 {
            let p = power(k);
            for exact in [
                0,
                1,
                -1,
                p - 1,
                p,
                p + 1,
                1 - p,
                -p,
                -p - 1,
                (p - 1) * (p - 1),
                -(p - 1) * (p - 1),
            ] {
                assert_eq!(keep(k, exact), keep_as_written(k, exact));
                assert_eq!(keep_near(p as i64, exact as i64), keep(k, exact));
            }
        }
    }
}
