//! A field of a record, and the rules that go by its kind alone.

use crate::outcome::{reason, Refusal};
use crate::sizes::Record;

/// A field's number and columns, all counted from 1 as in the scope paper.
#[derive(Clone, Copy)]
pub struct Field {
    number: u8,
    first: usize,
    last: usize,
}

/// A refusal whose record the caller knows.
pub struct Fault {
    number: u8,
    field: u8,
}

impl Fault {
    pub fn at(self, record: u64) -> Refusal {
        Refusal { number: self.number, record, field: self.field }
    }
}

pub const fn field(number: u8, first: usize, last: usize) -> Field {
    Field { number, first, last }
}

impl Field {
    pub fn number(self) -> u8 {
        self.number
    }

    /// How many bytes of its record come before the field.
    pub fn offset(self) -> usize {
        self.first - 1
    }

    pub fn of(self, record: &Record) -> &[u8] {
        &record[self.first - 1..self.last]
    }

    pub fn put(self, record: &mut Record, text: &[u8]) {
        record[self.first - 1..self.last].copy_from_slice(text);
    }

    /// Fills the field with a number, cut at the left where it has too many digits.
    pub fn put_number(self, record: &mut Record, number: u64) {
        put_digits(&mut record[self.first - 1..self.last], number);
    }

    pub fn fault(self, number: u8) -> Fault {
        Fault { number, field: self.number }
    }

    pub fn require(self, holds: bool, otherwise: u8) -> Result<(), Fault> {
        if holds {
            Ok(())
        } else {
            Err(self.fault(otherwise))
        }
    }

    pub fn fixed(self, record: &Record, text: &[u8]) -> Result<(), Fault> {
        self.require(self.of(record) == text, reason::FIXED_TEXT)
    }

    pub fn blanks(self, record: &Record) -> Result<(), Fault> {
        self.require(is_blank(self.of(record)), reason::FIXED_TEXT)
    }

    // This rule and the two of text are inlined wherever they are used: there the columns are
    // constants, and a field comes down to a few steps over so many bytes.
    #[inline(always)]
    pub fn digits(self, record: &Record) -> Result<u64, Fault> {
        let bytes = self.of(record);
        self.require(are_digits(bytes), reason::NOT_DIGITS)?;
        Ok(value(bytes))
    }

    #[inline(always)]
    pub fn optional_text(self, record: &Record) -> Result<(), Fault> {
        let text = self.of(record);
        self.require(all(text, is_text), reason::CHARACTER)?;
        self.require(text[0] != b' ' || is_blank(text), reason::MISPLACED_BLANK)
    }

    #[inline(always)]
    pub fn mandatory_text(self, record: &Record) -> Result<(), Fault> {
        let text = self.of(record);
        self.require(all(text, is_text), reason::CHARACTER)?;
        self.require(!is_blank(text), reason::ALL_BLANK)?;
        self.require(text[0] != b' ', reason::MISPLACED_BLANK)
    }

    pub fn date(self, record: &Record) -> Result<(), Fault> {
        let date = self.digits(record)?;
        self.require(is_day(date), reason::NO_SUCH_DAY_OR_TIME)
    }
}

/// Whether every byte obeys the rule. There is no early end, so that the compiler can look at
/// many bytes at a time; most fields are in order.
pub fn all(bytes: &[u8], rule: impl Fn(u8) -> bool) -> bool {
    bytes.iter().fold(true, |so_far, &byte| so_far & rule(byte))
}

fn is_text(byte: u8) -> bool {
    (b' '..=b'~').contains(&byte) & !byte.is_ascii_lowercase()
}

pub fn are_digits(bytes: &[u8]) -> bool {
    all(bytes, |byte| byte.is_ascii_digit())
}

pub fn is_blank(bytes: &[u8]) -> bool {
    all(bytes, |byte| byte == b' ')
}

/// The number that some digits spell.
pub fn value(digits: &[u8]) -> u64 {
    digits.iter().fold(0, |value, &digit| value * 10 + u64::from(digit - b'0'))
}

/// Spells a number with as many digits as there are places, dropping those at the left for which
/// there is none.
pub fn put_digits(places: &mut [u8], mut number: u64) {
    for place in places.iter_mut().rev() {
        *place = b'0' + (number % 10) as u8;
        number /= 10;
    }
}

/// Whether YYMMDD is a real day of 2000 to 2099, where every fourth year is a leap year.
fn is_day(date: u64) -> bool {
    let (year, month, day) = (date / 10_000, date / 100 % 100, date % 100);
    let days = match month {
        1 | 3 | 5 | 7 | 8 | 10 | 12 => 31,
        4 | 6 | 9 | 11 => 30,
        2 if year % 4 == 0 => 29,
        2 => 28,
        _ => 0,
    };
    (1..=days).contains(&day)
}

/// The digit that brings the weighted sum of eight routing digits to a multiple of ten.
pub fn check_digit(routing: &[u8]) -> u64 {
    const WEIGHTS: [u64; 8] = [3, 7, 1, 3, 7, 1, 3, 7];
    let sum: u64 =
        WEIGHTS.iter().zip(routing).map(|(weight, &digit)| weight * u64::from(digit - b'0')).sum();
    (10 - sum % 10) % 10
}
