//! What has to stand in a field that was refused, as far as the records before it tell.
//!
//! The first refusal is what is being explained, so everything before it is in order. What is due in
//! a control is what mending puts there.

use crate::money::{of_digits, spelled};
use crate::text::plain_text;
use ach::fields::{record_type, Field, Kind, Near, Own, Sum, COLUMNS, RECORD_TYPES};
use ach::{Refusal, Way};
use std::fmt;

const LARGEST_TOTAL: u64 = 999_999_999_999;

/// What is due: words, and before them the very text where there is but one.
pub struct Due {
    text: Option<Vec<u8>>,
    words: String,
}

impl fmt::Display for Due {
    fn fmt(&self, to: &mut fmt::Formatter) -> fmt::Result {
        match &self.text {
            Some(text) => write!(to, "{}, {}", plain_text(text), self.words),
            None => to.write_str(&self.words),
        }
    }
}

fn words(words: impl Into<String>) -> Due {
    Due { words: words.into(), text: None }
}

fn text(text: impl Into<Vec<u8>>, why: &str) -> Due {
    Due { text: Some(text.into()), words: why.into() }
}

/// A refused field in its file.
pub struct RefusedField<'f> {
    way: Way,
    /// The records before the refused one.
    before: &'f [u8],
    pub record: &'f [u8],
    pub field: &'static Field,
    number: u8,
}

impl<'f> RefusedField<'f> {
    /// Nothing if no field is named or it is not there.
    pub fn of(way: Way, file: &'f [u8], refusal: Refusal) -> Option<Self> {
        let start = (refusal.record as usize).checked_sub(1)?.checked_mul(way.record_length())?;
        let record = file.get(start..start + COLUMNS)?;
        // A record that is none has a type all the same: what stands in its first column.
        let known = record_type(record[0]).filter(|_| refusal.number != 3);
        let field = known.unwrap_or(&RECORD_TYPES[0]).field(refusal.field)?;
        Some(RefusedField { way, before: &file[..start], record, field, number: refusal.number })
    }

    pub fn due(&self) -> Due {
        let width = self.field.width();
        match self.field.kind {
            Kind::Type => next_types(self.way, self.before),
            Kind::Fixed(number) => text(format!("{number:0width$}"), "in every file"),
            Kind::Blanks => text(vec![b' '; width], "blanks in every file"),
            Kind::Digits => words("digits"),
            Kind::Optional => words("capital letters, digits and signs, or nothing but blanks"),
            Kind::Mandatory => words("capital letters, digits and signs, from the first column on"),
            Kind::Date => words("a day from 2000 to 2099, as YYMMDD"),
            Kind::Own(own) => self.own(own),
            Kind::Near(near) => self.near(near),
            Kind::AsBatch(_) => self.mended("as in the batch's header"),
            Kind::Total(_) if self.number == 20 => {
                let most = spelled(LARGEST_TOTAL);
                words(format!("at most {most}, and the amounts come to more: split the payments"))
            }
            Kind::Count(sum) | Kind::Hash(sum) | Kind::Total(sum) => self.mended(what_it_says(sum)),
        }
    }

    /// What mending puts into a field of a control. A batch control is the last one of a file that
    /// ends with it, so that nothing behind it matters.
    fn mended(&self, why: &str) -> Due {
        let line_end = self.way.line_end();
        let mut file = [self.before, self.record, line_end].concat();
        if self.record[0] == b'8' {
            file.extend([&[b'9'; COLUMNS], line_end].concat());
        }
        match ach::mend(self.way, &file) {
            Ok(mended) => text(self.field.of(&mended.file[self.before.len()..]), why),
            // A sum is too large, and that is for another field to say.
            Err(_) => words(why),
        }
    }

    fn own(&self, own: Own) -> Due {
        match own {
            Own::Destination if self.number == 12 => {
                let bank = &self.field.of(self.record)[1..9];
                let due = [b" ", bank, &[check_digit(bank)]].concat();
                text(due, "if all digits but the last are right")
            }
            Own::Destination => words("a blank, and then a bank's nine digits"),
            Own::Origin => words("a blank or a digit, and then nine digits"),
            Own::Time => words("a time from 0000 to 2359, or four blanks"),
            Own::Modifier => words("a capital letter or a digit"),
            Own::Class => words("200 (credits and debits), 220 (credits) or 225 (debits)"),
            Own::EntryClass => words("PPD or CCD"),
            Own::Bank => words("eight digits, the first of them 0 to 3"),
            Own::Account => {
                words("capital letters, digits and hyphens from the first column on, then blanks")
            }
        }
    }

    fn near(&self, near: Near) -> Due {
        match near {
            Near::Code => self.code(),
            Near::CheckDigit => {
                let bank = part(b'6', 3, self.record);
                text([check_digit(bank)], "if the eight digits before it are right")
            }
            Near::Amount => amount_of(part(b'6', 2, self.record)),
            Near::Trace => self.trace(),
            Near::EntryTrace => {
                let entry = last(self.way, self.before).unwrap_or(self.record);
                text(&part(b'6', 11, entry)[8..], "as the entry's trace number ends")
            }
            Near::BatchNumber => match self.records_back(b'5').next() {
                None => words("digits, at least 0000001"),
                Some(header) => {
                    let before = plain_text(part(b'5', 13, header));
                    words(format!("digits, more than the batch before has: {before}"))
                }
            },
            Near::Flag if is_remittance(part(b'6', 2, self.record)) => {
                text("1", "and an addendum behind the entry: a remittance is sent for its text")
            }
            Near::Flag => words("1 if an addendum follows, else 0"),
        }
    }

    /// The codes that the batch's class and entry class allow.
    fn code(&self) -> Due {
        let (credits, debits) = match part(b'5', 6, self.header()) {
            b"CCD" => ("22, 23, 24, 32, 33 or 34", "27, 28, 29, 37, 38 or 39"),
            _ => ("22, 23, 32 or 33", "27, 28, 37 or 38"),
        };
        let mut codes = match part(b'5', 2, self.header()) {
            b"220" => format!("{credits}: the batch is for credits"),
            b"225" => format!("{debits}: the batch is for debits"),
            _ => format!("{credits} for a credit, {debits} for a debit"),
        };
        if self.number == 28 {
            codes += "; zero-dollar remittances stand in CCD batches, and this one is PPD";
        }
        words(codes)
    }

    fn trace(&self) -> Due {
        let bank = plain_text(part(b'5', 12, self.header()));
        let entry = self.records_back_in_batch().find(|record| record[0] == b'6');
        let due = match entry.map(|entry| of_digits(&part(b'6', 11, entry)[8..])) {
            None => "0000001 or more".into(),
            Some(9_999_999) => {
                return words("nothing: no number is left behind 9999999 in this batch")
            }
            Some(before) => format!("a number greater than {before:07}, the entry's before it"),
        };
        words(format!("{bank}, as in the batch's header, and {due}"))
    }

    /// The header of the batch that the record belongs to.
    fn header(&self) -> &'f [u8] {
        self.records_back(b'5').next().unwrap_or(&[b' '; COLUMNS])
    }

    fn records_back_in_batch(&self) -> impl Iterator<Item = &'f [u8]> {
        self.all_back().take_while(|record| record[0] != b'5')
    }

    fn records_back(&self, digit: u8) -> impl Iterator<Item = &'f [u8]> {
        self.all_back().filter(move |record| record[0] == digit)
    }

    fn all_back(&self) -> impl Iterator<Item = &'f [u8]> {
        self.before.rchunks_exact(self.way.record_length())
    }
}

fn what_it_says(sum: Sum) -> &'static str {
    match sum {
        Sum::BatchRecords => "the batch's entries and addenda",
        Sum::FileRecords => "the file's entries and addenda",
        Sum::BatchHash => "the sum of the batch's bank numbers",
        Sum::FileHash => "the sum of the file's bank numbers",
        Sum::BatchDebit => "the sum of the batch's debits",
        Sum::BatchCredit => "the sum of the batch's credits",
        Sum::FileDebit => "the sum of the file's debits",
        Sum::FileCredit => "the sum of the file's credits",
        Sum::Batches => "the file's batches",
        Sum::Blocks => "this record's number by ten, rounded up",
    }
}

/// The record types that may follow the records before.
pub fn next_types(way: Way, before: &[u8]) -> Due {
    let one = |digit, why| text([digit], why);
    let Some(last) = last(way, before) else {
        return one(b'1', "the file header");
    };
    match last[0] {
        b'1' => one(b'5', "a batch header"),
        b'5' => one(b'6', "an entry: a batch must not be empty"),
        b'6' if part(b'6', 10, last) == b"1" => {
            one(b'7', "the addendum that the entry before calls for in column 79")
        }
        b'6' => words("6, another entry, or 8, the batch control"),
        b'7' => words("6, another entry, or 8, the batch control (one addendum an entry)"),
        b'8' => words("5, another batch header, or 9, the file control"),
        _ => words("a filler of 94 nines, up to a multiple of ten records"),
    }
}

fn amount_of(code: &[u8]) -> Due {
    match code {
        b"23" | b"28" | b"33" | b"38" => text("0000000000", "since the code is a prenote's"),
        code if is_remittance(code) => {
            text("0000000000", "since the code is a zero-dollar remittance's")
        }
        _ => words("ten digits, from 0.01 to 99999999.99"),
    }
}

/// A field of a record of this type; the caller knows that there is such a field.
fn part(digit: u8, field: u8, record: &[u8]) -> &[u8] {
    record_type(digit).and_then(|known| known.field(field)).map_or(&[], |field| field.of(record))
}

fn last(way: Way, records: &[u8]) -> Option<&[u8]> {
    records.rchunks_exact(way.record_length()).next()
}

fn is_remittance(code: &[u8]) -> bool {
    matches!(code, b"24" | b"29" | b"34" | b"39")
}

/// The digit that brings the weighted sum to a multiple of ten.
fn check_digit(bank: &[u8]) -> u8 {
    let weights = [3, 7, 1, 3, 7, 1, 3, 7];
    let weighed = bank.iter().zip(weights).map(|(digit, weight)| weight * (digit & 15) as u32);
    b'0' + ((10 - weighed.sum::<u32>() % 10) % 10) as u8
}

#[cfg(test)]
mod tests {
    use super::*;

    /// Wherever there is but one text that is due, it makes the refusal at that place go away.
    #[test]
    fn what_is_due_is_taken() {
        for (way, vectors) in [(Way::Plain, vectors::all()), (Way::Lined, vectors::lined())] {
            let mut tried = std::collections::BTreeSet::new();
            for vector in vectors {
                let Err(refusal) = ach::check(way, &vector.file) else {
                    continue;
                };
                let Some(refused) = RefusedField::of(way, &vector.file, refusal) else {
                    continue;
                };
                let Some(due) = refused.due().text else {
                    continue;
                };
                let mut mended = vector.file.clone();
                let start = refused.before.len() + refused.field.first - 1;
                mended[start..start + due.len()].copy_from_slice(&due);
                if let Err(next) = ach::check(way, &mended) {
                    // The line end, which has field 0, comes behind all fields of its record.
                    let after = |refusal: ach::Refusal| {
                        (refusal.record, refusal.number == 26, refusal.field)
                    };
                    let behind = after(next) > after(refusal);
                    assert!(behind, "{}: {refusal}, then {next}", vector.about);
                }
                tried.insert(refusal.number);
            }
            let numbers: Vec<u8> = tried.into_iter().collect();
            assert_eq!(numbers, [3, 5, 6, 11, 12, 14, 16, 18, 19, 21, 22, 28]);
        }
    }

    /// The same records with line ends have the same words for the same place.
    #[test]
    fn what_is_due_is_the_same_in_both_ways() {
        for vector in vectors::all() {
            let Err(refusal) = ach::check(Way::Plain, &vector.file) else {
                continue;
            };
            let twin = generate::lines::lined(&vector.file);
            let due = |way, file| {
                RefusedField::of(way, file, refusal).map(|refused| refused.due().to_string())
            };
            let plain = due(Way::Plain, &vector.file);
            assert_eq!(plain, due(Way::Lined, &twin), "{}", vector.about);
            assert_ne!(plain, Some(String::new()), "{}", vector.about);
        }
    }
}
