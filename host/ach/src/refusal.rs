//! Why something is refused, and where.

use std::fmt;

/// Why something was refused, and where; record and field are 0 where there is no place to name.
///
/// ```
/// let refusal = ach::check(ach::Way::Plain, b"").unwrap_err();
/// assert_eq!(refusal.number, 1);
/// assert_eq!(refusal.to_string(), "refusal 1: the length of the file is wrong");
/// ```
#[derive(Clone, Copy, Debug, PartialEq, Eq)]
pub struct Refusal {
    /// The reason, which [`reason`] has words for.
    pub number: u8,
    /// The record, counted from 1; for a line of a list (29, 30 and 32) the line.
    pub record: u64,
    /// The field of that record or line, counted from 1.
    pub field: u8,
}

impl Refusal {
    pub(crate) fn from_answer(answer: u64) -> Self {
        let [number, field, ..] = answer.to_le_bytes();
        Refusal { number, record: answer >> 16, field }
    }

    /// The refusal of a thing that has no place.
    pub const fn without_place(number: u8) -> Self {
        Refusal { number, record: 0, field: 0 }
    }

    /// Whether it is a line of a list that is refused, and no record of a file.
    ///
    /// ```
    /// let refusal = ach::import(b"", b"", b"no line").unwrap_err();
    /// assert!(refusal.is_of_line());
    /// assert_eq!(refusal.to_string(), "refusal 29: the line is not six fields with commas between them (line 1)");
    /// ```
    pub const fn is_of_line(self) -> bool {
        matches!(self.number, 29 | 30 | 32)
    }
}

impl fmt::Display for Refusal {
    fn fmt(&self, to: &mut fmt::Formatter) -> fmt::Result {
        write!(to, "refusal {}: {}", self.number, reason(self.number).unwrap_or("unknown"))?;
        let place = if self.is_of_line() { "line" } else { "record" };
        match (self.record, self.field) {
            (0, _) => Ok(()),
            (record, 0) => write!(to, " ({place} {record})"),
            (record, field) => write!(to, " ({place} {record}, field {field})"),
        }
    }
}

impl std::error::Error for Refusal {}

/// Nothing where the boundary grants what was asked, else the refusal that it spells.
pub(crate) fn granted(answer: u64) -> Result<(), Refusal> {
    match answer {
        0 => Ok(()),
        _ => Err(Refusal::from_answer(answer)),
    }
}

/// What each number means.
const REASONS: [(u8, &str); 32] = [
    (1, "the length of the file is wrong"),
    (2, "the data end where a record is still due"),
    (3, "a record of this type may not stand here"),
    (4, "a record stands behind the filled block"),
    (5, "fixed text is not as it has to be"),
    (6, "something other than digits stands here"),
    (7, "a character stands here that is not allowed"),
    (8, "the field must not be all blank"),
    (9, "a blank stands before other characters"),
    (10, "there is no such day or time"),
    (11, "the value is not one of those known"),
    (12, "the check digit is wrong"),
    (13, "the bank's number begins with a digit above 3"),
    (14, "the amount does not suit the transaction code"),
    (15, "the code is not allowed under the batch's service class"),
    (16, "the trace number is wrong"),
    (17, "the batch number does not rise"),
    (18, "the count is wrong"),
    (19, "the entry hash is wrong"),
    (20, "the sum of the amounts is above 9,999,999,999.99"),
    (21, "the total is not the sum of the amounts"),
    (22, "the batch control differs from the batch header"),
    (23, "the room for the result is too short"),
    (24, "the table is not of the right shape"),
    (25, "there is no entry of this number"),
    (26, "the record is not followed by CR LF"),
    (27, "no entry would be left"),
    (28, "a zero-dollar remittance stands in a PPD batch or has no addendum"),
    (29, "the line is not six fields with commas between them"),
    (30, "the amount of the line is not digits, a point and two digits, or is too large"),
    (32, "the field of the line is too long for its columns"),
    (34, "the rows lent are not those of the file"),
];

/// What a refusal's number means; nothing for a number that is none.
///
/// ```
/// assert_eq!(ach::reason(12), Some("the check digit is wrong"));
/// assert_eq!(ach::reason(99), None);
/// ```
pub fn reason(number: u8) -> Option<&'static str> {
    REASONS.iter().find(|(known, _)| *known == number).map(|(_, words)| *words)
}
