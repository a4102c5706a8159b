//! Amounts as people write them.

/// Cents of `1234.56` or `1234`: digits, and no point or a point and two digits.
///
/// What does not fit becomes the largest number there is. It has more than ten digits like the
/// amount meant, and the library answers alike to all of those.
pub fn cents(text: &str) -> Option<u64> {
    let (whole, part) = text.split_once('.').unwrap_or((text, "00"));
    if part.len() != 2 {
        return None;
    }
    number(&format!("{}{part}", Some(whole).filter(|digits| !digits.is_empty())?))
}

/// The number that digits spell, or the largest number there is if that is less.
pub fn number(digits: &str) -> Option<u64> {
    if digits.is_empty() || !digits.bytes().all(|byte| byte.is_ascii_digit()) {
        return None;
    }
    Some(digits.parse().unwrap_or(u64::MAX))
}

/// The number that the digits of a file spell; other bytes count nothing.
pub fn of_digits(digits: &[u8]) -> u64 {
    let digits = digits.iter().filter(|byte| byte.is_ascii_digit());
    digits.fold(0, |value, digit| value * 10 + u64::from(digit - b'0'))
}

pub fn spelled(cents: u64) -> String {
    format!("{}.{:02}", cents / 100, cents % 100)
}

pub fn signed(cents: i64) -> String {
    let sign = if cents < 0 { '-' } else { '+' };
    format!("{sign}{}", spelled(cents.unsigned_abs()))
}

#[cfg(test)]
mod tests {
    use super::*;

    #[test]
    fn amounts_are_read_exactly() {
        for (text, expected) in [
            ("1234.56", 123_456),
            ("1234", 123_400),
            ("0.00", 0),
            ("0", 0),
            ("0.07", 7),
            ("00012.30", 1_230),
            ("99999999.99", 9_999_999_999),
            ("100000000.00", 10_000_000_000),
            // A number that floating point would not hold.
            ("90071992547409.93", 9_007_199_254_740_993),
            ("184467440737095516.15", u64::MAX),
            ("184467440737095516.16", u64::MAX),
            ("99999999999999999999999999", u64::MAX),
        ] {
            assert_eq!(cents(text), Some(expected), "{text}");
        }
    }

    #[test]
    fn nothing_else_is_an_amount() {
        for text in [
            "", ".", ".5", ".50", "1.", "1.5", "1.234", "1,234.56", "-1.00", "+1.00", "1e3", " 1",
            "1 ", "$1", "1.2.3", "1.-5", "one", "１",
        ] {
            assert_eq!(cents(text), None, "{text}");
        }
    }

    #[test]
    fn amounts_are_spelled_with_two_digits_of_cents() {
        assert_eq!(spelled(0), "0.00");
        assert_eq!(spelled(7), "0.07");
        assert_eq!(spelled(200_000), "2000.00");
        assert_eq!(signed(-50), "-0.50");
        assert_eq!(signed(0), "+0.00");
        assert_eq!(signed(9_999_999_998), "+99999999.98");
    }

    #[test]
    fn what_is_spelled_is_read_again() {
        for cents_given in [0, 1, 99, 100, 12_550, 9_999_999_999, 999_999_999_999] {
            assert_eq!(cents(&spelled(cents_given)), Some(cents_given));
        }
    }
}
