//! A client's list as lines and fields, so that a refusal of `import` can be explained by what
//! stands in them. Nothing that is decided or written comes from here.

use crate::formed::COUNT;
use crate::money::of_digits;
use ach::{LineField, BATCH_ROW, LINE_FIELDS};

/// Where the bank stands in a batch's row.
const BANK: usize = 74;

/// A line of a list, as far as it can be read.
pub struct Line {
    /// The fields without their quotes; where there is a fault, those before it and its own.
    pub fields: Vec<Vec<u8>>,
    pub fault: Option<Fault>,
    /// How many bytes the line has with its break, or up to the fault.
    pub length: usize,
}

/// Why the grammar stops, with the byte on which it does where that may be any.
#[derive(Clone, Debug, PartialEq)]
pub enum Fault {
    /// A byte that no field takes.
    Byte(u8),
    /// CR or LF outside of quotes, and not CR LF.
    LoneBreak(u8),
    /// A quote in a field that does not begin with one.
    QuoteInside,
    /// Something other than a comma or a break behind a closing quote.
    BehindQuote(u8),
    /// No closing quote up to the end of the list.
    NeverClosed,
}

/// The lines of a list up to the first fault, or to its end.
pub fn lines(list: &[u8]) -> impl Iterator<Item = Line> + '_ {
    let mut rest = list;
    std::iter::from_fn(move || {
        let line = (!rest.is_empty()).then(|| Line::first_of(rest))?;
        rest = if line.fault.is_none() { &rest[line.length..] } else { b"" };
        Some(line)
    })
}

/// What the beginning of a list tells of its first line, whatever follows.
#[derive(Debug, PartialEq)]
pub enum FirstLine {
    /// It ends there, and has six fields.
    Whole,
    /// It is no line.
    Faulty,
    /// It does not end there.
    Endless,
}

pub fn first_line(beginning: &[u8]) -> FirstLine {
    let line = Line::first_of(beginning);
    // With more bytes a CR at the end may become a break, and a quote there one of two.
    let open = line.length + 1 >= beginning.len();
    match line.fields.len() {
        fields if fields > LINE_FIELDS.len() => FirstLine::Faulty,
        _ if open => FirstLine::Endless,
        fields if line.fault.is_some() || fields < LINE_FIELDS.len() => FirstLine::Faulty,
        _ => FirstLine::Whole,
    }
}

impl Line {
    fn first_of(bytes: &[u8]) -> Line {
        let mut fields = Vec::new();
        let mut at = 0;
        loop {
            let (field, end, fault) = match bytes.get(at) {
                Some(b'"') => quoted(bytes, at + 1),
                _ => unquoted(bytes, at),
            };
            fields.push(field);
            at = end;
            let behind = &bytes[at..];
            if fault.is_none() && behind.first() == Some(&b',') {
                at += 1;
                continue;
            }
            let length = if behind.starts_with(b"\r\n") { at + 2 } else { at };
            return Line { fields, fault, length };
        }
    }
}

/// A field, where it ends, and what is wrong there.
type Read = (Vec<u8>, usize, Option<Fault>);

fn unquoted(bytes: &[u8], start: usize) -> Read {
    let end = bytes[start..].iter().position(|byte| !is_text(*byte));
    let end = end.map_or(bytes.len(), |length| start + length);
    let fault = match bytes[end..] {
        [] | [b',', ..] | [b'\r', b'\n', ..] => None,
        [b'"', ..] => Some(Fault::QuoteInside),
        [byte @ (b'\r' | b'\n'), ..] => Some(Fault::LoneBreak(byte)),
        [byte, ..] => Some(Fault::Byte(byte)),
    };
    (bytes[start..end].to_vec(), end, fault)
}

/// Reads on from behind the opening quote.
fn quoted(bytes: &[u8], start: usize) -> Read {
    let mut field = Vec::new();
    let mut at = start;
    loop {
        let fault = match bytes[at..] {
            [b'"', b'"', ..] => {
                field.push(b'"');
                at += 2;
                continue;
            }
            [b'"', ref behind @ ..] => return (field, at + 1, behind_quote(behind)),
            [byte, ..] if is_text(byte) || b",\r\n".contains(&byte) => {
                field.push(byte);
                at += 1;
                continue;
            }
            [byte, ..] => Fault::Byte(byte),
            [] => Fault::NeverClosed,
        };
        return (field, at, Some(fault));
    }
}

fn behind_quote(behind: &[u8]) -> Option<Fault> {
    match *behind {
        [] | [b',', ..] | [b'\r', b'\n', ..] => None,
        [byte @ (b'\r' | b'\n'), ..] => Some(Fault::LoneBreak(byte)),
        [byte, ..] => Some(Fault::BehindQuote(byte)),
    }
}

fn is_text(byte: u8) -> bool {
    matches!(byte, b' '..=b'~') && byte != b'"' && byte != b','
}

/// The table that a list would become, its lines and rows being in order.
pub fn table(file_row: &[u8], batch_row: &[u8], list: &[u8]) -> Vec<u8> {
    let (batch, _) = batch_row.split_at(BATCH_ROW - COUNT);
    let (_, bank_and_number) = batch.split_at(BANK);
    let mut rows = Vec::new();
    let mut lines_so_far = 0;
    for line in lines(list) {
        lines_so_far += 1;
        rows.extend(entry_row(&line.fields, &bank_and_number[..8], lines_so_far));
    }
    let count = format!("{lines_so_far:06}").into_bytes();
    [b"000001", file_row, b"000001", batch, &count, &count, &rows, b"000000"].concat()
}

/// The row of a line: its fields, no discretionary data, no addendum, and the trace.
fn entry_row(fields: &[Vec<u8>], bank: &[u8], trace: u64) -> Vec<u8> {
    let mut row = Vec::new();
    for (field, LineField { name, width }) in fields.iter().zip(LINE_FIELDS) {
        match name {
            "amount" => row.extend(format!("{:0width$}", of_digits(field)).into_bytes()),
            _ => {
                row.extend(field);
                row.extend(vec![b' '; width - field.len()]);
            }
        }
    }
    [&row, b"  0".as_slice(), bank, format!("{trace:07}").as_bytes()].concat()
}

#[cfg(test)]
mod tests {
    use super::*;
    use generate::lists::list_of;
    use generate::{plan, Entry, Random};

    #[test]
    fn the_table_is_the_plans() {
        let mut random = Random::new(12);
        for _ in 0..200 {
            let mut plan = plan(&mut random, 1, 6);
            let entries = plan.batches[0].entries.iter().zip(1..);
            plan.batches[0].entries = entries
                .map(|(entry, trace)| Entry {
                    trace,
                    discretionary: String::new(),
                    addendum: None,
                    ..entry.clone()
                })
                .collect();
            let list = list_of(&mut random, &plan, 0);
            assert_eq!(table(&list.file_row, &list.batch_row, &list.lines), plan.table());
        }
    }

    #[test]
    fn the_fault_of_a_line() {
        for (list, fault, fields) in [
            ("A,\"B\tC\"", Fault::Byte(b'\t'), 2),
            ("A\x7F", Fault::Byte(0x7F), 1),
            ("A\nB", Fault::LoneBreak(b'\n'), 1),
            ("A,B\r", Fault::LoneBreak(b'\r'), 2),
            ("A,\"B\"\n", Fault::LoneBreak(b'\n'), 2),
            ("A,B\"", Fault::QuoteInside, 2),
            ("A,\"B\"C", Fault::BehindQuote(b'C'), 2),
            ("A,B,\"C\"\"\r\n", Fault::NeverClosed, 3),
        ] {
            for before in ["", "1,2\r\n", "\"\r\n\"\r\n\r\n"] {
                let list = format!("{before}{list}");
                let line = lines(list.as_bytes()).last().unwrap();
                assert_eq!((line.fault, line.fields.len()), (Some(fault.clone()), fields));
            }
        }
    }

    #[test]
    fn a_beginning_is_not_judged_by_its_end() {
        for (beginning, expected) in [
            ("1,2,3,4,5,6\r\n1,", FirstLine::Whole),
            ("1,2,3,4,5,6\r\n", FirstLine::Endless),
            ("1,2,3,4,5,6\r", FirstLine::Endless),
            ("1,2,3,4,5,\"6\"", FirstLine::Endless),
            ("1,2,3,4,5,\"6\r\n", FirstLine::Endless),
            ("1,2,3", FirstLine::Endless),
            ("1,2,3,4,5,6,7", FirstLine::Faulty),
            ("1,2,3\r\n1,", FirstLine::Faulty),
            ("\0\0\0", FirstLine::Faulty),
            ("1,\"2\"3,4", FirstLine::Faulty),
            ("1,2\n3,4", FirstLine::Faulty),
        ] {
            assert_eq!(first_line(beginning.as_bytes()), expected, "{beginning:?}");
        }
    }

    #[test]
    fn lines_without_a_fault() {
        let fields = |list: &str| -> Vec<usize> {
            let each = lines(list.as_bytes());
            each.map(|line| {
                assert_eq!(line.fault, None);
                line.fields.len()
            })
            .collect()
        };
        assert_eq!(fields(""), []);
        assert_eq!(fields("\r\n"), [1]);
        assert_eq!(fields("A"), [1]);
        assert_eq!(fields("A,\r\n"), [2]);
        assert_eq!(fields("\",\r\n\"\"\",\r\n,,"), [2, 3]);
    }
}
