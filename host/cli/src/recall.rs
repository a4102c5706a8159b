//! The entries that are to be taken out: numbers and ranges, as words or in a file.

use crate::money;
use crate::trouble::{failed, Trouble};
use std::ops::RangeInclusive;

/// A number, or a range of numbers with the lower one first.
#[derive(Debug, PartialEq)]
pub struct Entries {
    first: u64,
    last: u64,
    /// How it was written, and in which line if it was not on the command line.
    text: String,
    line: Option<usize>,
}

/// No file has as many entries.
const BEYOND_ALL: u64 = 1_000_000;

/// Numbers that are handed on at most; each entry of the longest file ten times.
const MOST_NUMBERS: usize = 10_000_000;

/// No list of a file's entries, each once, is as long.
pub const LONGEST_LIST: usize = 10_000_000;

impl Entries {
    /// `7`, or `3-7`.
    pub fn parse(text: &str) -> Option<Self> {
        let (first, last) = text.split_once('-').unwrap_or((text, text));
        let (first, last) = (money::number(first)?, money::number(last)?);
        (first <= last).then(|| Entries { first, last, text: text.into(), line: None })
    }

    /// What the library is asked for. A range that goes beyond every file is refused for its last
    /// number, whatever else is in it, so that one will do.
    fn numbers(&self) -> RangeInclusive<u64> {
        let first = if self.last >= BEYOND_ALL { self.last } else { self.first };
        first..=self.last
    }

    /// The first number that is no entry's in a file of so many, with where it was given.
    pub fn outside(&self, entries: u64) -> Option<String> {
        if self.first > 0 && self.last <= entries {
            return None;
        }
        let number = if self.first == 0 { 0 } else { self.first.max(entries + 1) };
        let mut words = self.text.clone();
        if self.first < self.last {
            words = format!("{number}, given as {}", self.text);
        }
        if let Some(line) = self.line {
            words += &format!(", line {line} of the list");
        }
        Some(words)
    }
}

/// The entries of a list: a number or a range in each line, blank lines aside.
pub fn listed(name: &str, bytes: &[u8]) -> Result<Vec<Entries>, Trouble> {
    let mut entries = Vec::new();
    for (text, line) in String::from_utf8_lossy(bytes).lines().zip(1..) {
        match Entries::parse(text.trim()) {
            Some(parsed) => entries.push(Entries { line: Some(line), ..parsed }),
            None if text.trim().is_empty() => (),
            None => {
                let due = "an entry's number or a range such as 3-7";
                return failed(format!("{name}: line {line} is not {due}"));
            }
        }
    }
    Ok(entries)
}

/// All numbers that are asked for, one by one.
pub fn numbers(asked: &[Entries]) -> Result<Vec<u64>, Trouble> {
    let numbers: Vec<u64> =
        asked.iter().flat_map(Entries::numbers).take(MOST_NUMBERS + 1).collect();
    if numbers.len() > MOST_NUMBERS {
        return failed(format!("more than {MOST_NUMBERS} entries are not taken out at once"));
    }
    Ok(numbers)
}

#[cfg(test)]
mod tests {
    use super::*;

    fn parsed(text: &str) -> Entries {
        Entries::parse(text).unwrap_or_else(|| panic!("{text}"))
    }

    #[test]
    fn a_number_or_a_range() {
        for (text, first, last) in [
            ("7", 7, 7),
            ("007", 7, 7),
            ("3-7", 3, 7),
            ("3-3", 3, 3),
            ("0-1", 0, 1),
            ("99999999999999999999999", u64::MAX, u64::MAX),
        ] {
            let entries = parsed(text);
            assert_eq!((entries.first, entries.last), (first, last), "{text}");
        }
        for text in ["", "-", "-3", "3-", "7-3", "3-5-7", "3..7", "+3", "3 - 7", "x", "1.5", "３"]
        {
            assert_eq!(Entries::parse(text), None, "{text}");
        }
    }

    #[test]
    fn numbers_one_by_one() {
        let all = |texts: &[&str]| {
            let asked: Vec<Entries> = texts.iter().map(|text| parsed(text)).collect();
            numbers(&asked).map_err(|_| "too many")
        };
        assert_eq!(all(&[]), Ok(vec![]));
        assert_eq!(all(&["9", "2-4", "3"]), Ok(vec![9, 2, 3, 4, 3]));
        // Nobody waits for a number of numbers that no file has.
        assert_eq!(all(&["1-18446744073709551615", "5"]), Ok(vec![u64::MAX, 5]));
        assert_eq!(all(&["1-999999"; 10]).map(|numbers| numbers.len()), Ok(9_999_990));
        assert_eq!(all(&["1-999999"; 11]), Err("too many"));
    }

    #[test]
    fn what_is_outside() {
        for (text, expected) in [
            ("1", None),
            ("4", None),
            ("1-4", None),
            ("0", Some("0")),
            ("5", Some("5")),
            ("0-2", Some("0, given as 0-2")),
            ("3-9", Some("5, given as 3-9")),
            ("7-9", Some("7, given as 7-9")),
            ("99999999999999999999999", Some("99999999999999999999999")),
        ] {
            assert_eq!(parsed(text).outside(4).as_deref(), expected, "{text}");
        }
    }

    #[test]
    fn a_list_has_one_a_line() {
        let list = |bytes: &[u8]| match listed("list", bytes) {
            Ok(entries) => Ok(entries.iter().map(|one| (one.first, one.line)).collect::<Vec<_>>()),
            Err(Trouble::Failed(words)) => Err(words),
            Err(_) => panic!("only a failure is expected"),
        };
        assert_eq!(list(b""), Ok(vec![]));
        assert_eq!(list(b"\r\n \n"), Ok(vec![]));
        let expected = vec![(3, Some(1)), (9, Some(3)), (5, Some(4))];
        assert_eq!(list(b"3\r\n\r\n 9 \r\n5-7"), Ok(expected));
        for bytes in [&b"3\nx"[..], b"3\n4 5", b"3\n\xFF", b"3\n4,5", b"3\n4\r5", b"\n-1"] {
            let words = list(bytes).unwrap_err();
            assert!(words.starts_with("list: line 2 is not an entry's number"), "{words}");
        }
        let mut entries = listed("list", b"1\n8").unwrap_or_default();
        assert_eq!(entries.remove(1).outside(4).as_deref(), Some("8, line 2 of the list"));
    }
}
