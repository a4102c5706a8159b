//! Refusals of an import in words: the line and its field, what stands there, what is due.

use crate::formed::Sections;
use crate::list::{self, Fault, Line};
use crate::money::spelled;
use crate::text::plain_text;
use crate::words::{in_formed, Explanation};
use ach::{Acceptance, LineField, Refusal, BATCH_ROW, FILE_ROW, LINE_FIELDS};
use std::ops::Range;

/// Columns 77-78 in an entry's row, which begins with column 2.
const DISCRETIONARY: Range<usize> = 77 - 2..79 - 2;

/// Of a row's file that is longer no more is read.
pub const LONGEST_ROW: usize = 9_999;

/// What was given to an import.
pub struct Import<'i> {
    pub file_row: &'i [u8],
    pub batch_row: &'i [u8],
    pub list: &'i [u8],
}

pub fn of_import(name: &str, given: &Import, refusal: Refusal) -> String {
    let explanation = match refusal.number {
        29 | 30 | 32 => in_line(given.list, refusal),
        24 => shape(given),
        1 => Explanation {
            stands: format!("{} lines", list::lines(given.list).count()),
            due: "at most 999996 lines: a file has a million records".into(),
            ..Explanation::default()
        },
        3 => Explanation {
            stands: "nothing: the list is empty".into(),
            due: "at least one line".into(),
            ..Explanation::default()
        },
        _ => in_file(given, refusal),
    };
    explanation.lines(name, refusal)
}

/// What the lines of a table hold, and what of the table they do not.
pub fn of_export(name: &str, length: usize, held: &Acceptance, table: &[u8]) -> String {
    let (debits, credits) = (spelled(held.debit), spelled(held.credit));
    let lines = held.entries;
    let rows = Sections::of(table).into_iter().flat_map(|sections| sections.entries());
    let discretionary = rows.filter(|(row, _)| row[DISCRETIONARY].iter().any(|byte| *byte != b' '));
    let left_out: String = [
        ("batch headers", held.batches),
        ("traces", held.entries),
        ("discretionary data", discretionary.count() as u64),
        ("addenda", held.addenda),
    ]
    .into_iter()
    .filter(|(_, count)| *count > 0)
    .map(|(what, count)| format!(", {what} {count}"))
    .collect();
    format!(
        "{name}: {length} bytes written; lines {lines}, debits {debits}, credits {credits}
  left out: file header{left_out}\n"
    )
}

/// What may stand in a field of a line.
pub fn due_in(field: &LineField) -> String {
    match field.name {
        "amount" => "digits, a point and two digits, at most 99999999.99".into(),
        _ => format!("at most {} characters", field.width),
    }
}

/// A line that is none, or a field of one.
fn in_line(list: &[u8], refusal: Refusal) -> Explanation {
    let index = (refusal.record as usize).saturating_sub(1);
    let Some(line) = list::lines(list).nth(index) else {
        return Explanation::default();
    };
    let number = match refusal.field {
        0 => line.fields.len(),
        field => usize::from(field),
    };
    let (stands, due) = match (&line.fault, refusal.number) {
        (Some(fault), _) => of_fault(fault, &line),
        (None, 29) => of_count(&line),
        (None, _) => of_field(&line, number),
    };
    let whole_line = line.fault.is_none() && refusal.number == 29;
    let field = if whole_line { String::new() } else { format!(", {}", field_name(number)) };
    Explanation {
        place: format!("line {}{field}", refusal.record),
        stands,
        due,
        hint: hint(list, &line, refusal),
    }
}

/// Such as "field 4 amount".
fn field_name(number: usize) -> String {
    let known = number.checked_sub(1).and_then(|index| LINE_FIELDS.get(index));
    match known {
        Some(field) => format!("field {number} {}", field.name),
        None => format!("field {number}, where no more than six are due"),
    }
}

/// What stands where the grammar stops, and what could.
fn of_fault(fault: &Fault, line: &Line) -> (String, String) {
    let field = end_of(line.fields.last().map_or(b"".as_slice(), |field| field));
    let (stands, due) = match fault {
        Fault::Byte(byte) => (
            format!("{} behind {field}", plain_text(&[*byte])),
            "plain letters, digits and signs: no tab, no accent, no mark before the list",
        ),
        Fault::LoneBreak(byte) => (
            format!("{} alone behind {field}", plain_text(&[*byte])),
            "\"\\x0D\\x0A\", CR LF at the end of a line; in a field, quotes around it",
        ),
        Fault::QuoteInside => (
            format!("a quote behind {field}"),
            "quotes around the whole field, and every quote in it doubled",
        ),
        Fault::BehindQuote(byte) => (
            format!("{} behind the quote that closes {field}", plain_text(&[*byte])),
            "a comma or the line's end there; a quote inside a field is doubled",
        ),
        Fault::NeverClosed => (
            "a quote that opens the field, and none that closes it".into(),
            "a quote at the end of the field",
        ),
    };
    (stands, due.into())
}

fn of_count(line: &Line) -> (String, String) {
    let names = LINE_FIELDS.map(|field| field.name).join(", ");
    let stands = match line.fields.as_slice() {
        [only] if only.is_empty() => "an empty line".into(),
        [only] => format!("one field: {}", end_of(only)),
        fields => format!("{} fields", fields.len()),
    };
    (stands, format!("six fields with commas between them: {names}"))
}

fn of_field(line: &Line, number: usize) -> (String, String) {
    let (Some(text), Some(known)) = (line.fields.get(number - 1), LINE_FIELDS.get(number - 1))
    else {
        return (String::new(), String::new());
    };
    let length = match known.name {
        "amount" => String::new(),
        _ => format!(", {} characters", text.len()),
    };
    (format!("{}{length}", end_of(text)), due_in(known))
}

/// The end of a text, in quotes; of a long one not more than a clerk wants to read.
fn end_of(text: &[u8]) -> String {
    const MOST: usize = 60;
    match text.len().checked_sub(MOST) {
        None | Some(0) => plain_text(text),
        Some(more) => format!("..{}", plain_text(&text[more..])),
    }
}

fn hint(list: &[u8], line: &Line, refusal: Refusal) -> &'static str {
    let has = |sign: u8| line.fields.iter().any(|field| field.contains(&sign));
    let text = line.fields.concat();
    let names = text.iter().any(u8::is_ascii_alphabetic) && !text.iter().any(u8::is_ascii_digit);
    match &line.fault {
        _ if list.starts_with(b"\xEF\xBB\xBF") => {
            "a byte order mark stands before the list: save it without one"
        }
        Some(Fault::LoneBreak(b'\n')) => "where LF alone ends the lines, save the list with CR LF",
        Some(_) if has(b'\n') => {
            "a line break stands inside the field: the quote that closes it may be missing"
        }
        None if refusal.number == 29 && has(b';') => {
            "semicolons stand in the line: save the list with commas"
        }
        None if refusal.record == 1 && names => "a list has no header line",
        _ => "",
    }
}

/// Rows of the wrong length, or too many lines.
fn shape(given: &Import) -> Explanation {
    let length = |row: &[u8]| match row.len() {
        length if length > LONGEST_ROW => format!("more than {LONGEST_ROW}"),
        length => length.to_string(),
    };
    let (file, batch) = (length(given.file_row), length(given.batch_row));
    let lines = list::lines(given.list).count();
    let with_break = |row: &[u8]| row.ends_with(b"\n");
    let hint = if with_break(given.file_row) || with_break(given.batch_row) {
        "a row's file ends with a line break, which counts: leave it out"
    } else {
        ""
    };
    Explanation {
        stands: format!("file row {file} bytes, batch row {batch} bytes, lines {lines}"),
        due: format!(
            "file row {FILE_ROW} bytes, batch row {BATCH_ROW} bytes, lines 999999 at most"
        ),
        hint,
        ..Explanation::default()
    }
}

/// A record of the file that would be formed: which row or line it comes from.
fn in_file(given: &Import, refusal: Refusal) -> Explanation {
    let table = list::table(given.file_row, given.batch_row, given.list);
    let mut explanation = in_formed(&table, refusal);
    let lines = list::lines(given.list).count() as u64;
    let from = match refusal.record {
        1 => "file row".into(),
        2 => "batch row".into(),
        record if record <= lines + 2 => {
            let field = field_of_line(refusal.field).map(field_name);
            let names = [Some(format!("line {}", record - 2)), field];
            names.into_iter().flatten().collect::<Vec<_>>().join(", ")
        }
        _ => return explanation,
    };
    explanation.place = format!("{from}; {}", explanation.place);
    if refusal.number == 28 {
        explanation.due =
            "a payment or a prenote: zero-dollar remittances have addenda, and a list has none"
                .into();
    }
    explanation
}

/// The field of a line that an entry's field comes from.
fn field_of_line(field: u8) -> Option<usize> {
    match field {
        // No line has an addendum, which is wrong for some codes.
        2 | 10 => Some(1),
        3 | 4 => Some(2),
        5..=8 => Some(usize::from(field) - 2),
        _ => None,
    }
}

#[cfg(test)]
mod tests {
    use super::*;
    use generate::lists::{fields_of, list_of, random_field_damage, random_list_damage, spelled};
    use generate::{plan, Random};
    use std::collections::BTreeSet;

    /// Wherever the library refuses a list, the words say what stands there and what is due, and
    /// the line that it finds to be none is the first one that is none to the words.
    #[test]
    fn every_refusal_has_its_words() {
        let mut random = Random::new(13);
        let mut numbers = BTreeSet::new();
        for case in 0..4_000 {
            let plan = plan(&mut random, 1, 4);
            let mut list = list_of(&mut random, &plan, 0);
            if case % 2 == 0 {
                let mut fields: Vec<_> = plan.batches[0].entries.iter().map(fields_of).collect();
                random_field_damage(&mut random, &mut fields);
                list.lines = spelled(&mut random, &fields);
            } else {
                list.lines = random_list_damage(&mut random, &list.lines);
            }
            let given =
                Import { file_row: &list.file_row, batch_row: &list.batch_row, list: &list.lines };
            let Err(refusal) = ach::import(given.file_row, given.batch_row, given.list) else {
                continue;
            };
            let words = of_import("list", &given, refusal);
            assert!(words.contains("\n  stands ") && words.contains("\n  due    "), "{words}");
            let none = first_that_is_none(given.list);
            match refusal.number {
                29 => assert_eq!(none, Some(refusal.record), "{words}"),
                30 | 32 => assert!(none.is_none_or(|line| line > refusal.record), "{words}"),
                _ => assert_eq!(none, None, "{words}"),
            }
            numbers.insert(refusal.number);
        }
        assert!([3, 6, 7, 8, 9, 11, 12, 14, 28, 29, 30, 32]
            .iter()
            .all(|seen| numbers.contains(seen)));
    }

    fn first_that_is_none(list: &[u8]) -> Option<u64> {
        let is_none = |line: &Line| line.fault.is_some() || line.fields.len() != 6;
        let mut numbered = list::lines(list).zip(1..);
        numbered.find(|(line, _)| is_none(line)).map(|(_, number)| number)
    }
}
