//! Client lists as comma lines: a list becomes a pay table, and a table's entries a list.
//!
//! The grammar is that of RFC 4180, to the letter. A line is one of the grammar's, so that a break
//! inside quotes does not end it.

use crate::field::{are_digits, put_digits, value};
use crate::outcome::{reason, Refusal};
use crate::records::Way;
use crate::sizes::{Record, RECORD_LENGTH};
use crate::table::{
    put_in, write, Table, BATCH_ROW, COUNT_LENGTH, ENTRY_PART, ENTRY_ROW, HEADER_ROW,
};
use std::ops::Range;

/// Where the fields of a line stand in an entry's record: code, routing number with its check
/// digit, account, amount, identification, name.
const COLUMNS: [Range<usize>; 6] = [1..3, 3..12, 12..29, 29..39, 39..54, 54..76];
const AMOUNT: usize = 3;
const NO_ADDENDUM: usize = 78;
const BANK: Range<usize> = 79..87;
const TRACE: Range<usize> = 87..94;
/// The bank in a batch's row, which has columns 80-87 behind columns 2-75.
const BANK_OF_BATCH: Range<usize> = 74..82;

/// A count has six digits.
const MOST_LINES: usize = 999_999;

/// The pay table of a list: one batch, an entry for each line.
pub fn import(file_row: &[u8], batch_row: &[u8], lines: &[u8]) -> Result<Vec<u8>, Refusal> {
    let mut entries = entries_of(lines)?;
    let rows_fit = file_row.len() == HEADER_ROW && batch_row.len() == BATCH_ROW;
    if !rows_fit || entries.len() > MOST_LINES {
        return Err(Refusal::without_place(reason::TABLE_SHAPE));
    }
    for (entry, trace) in entries.iter_mut().zip(1..) {
        entry[BANK].copy_from_slice(&batch_row[BANK_OF_BATCH]);
        put_digits(&mut entry[TRACE], trace);
    }
    let table = table_of(file_row, batch_row, &entries);
    write(Way::Plain, &table)?;
    Ok(table)
}

/// Writes the pay table of a list into the room lent, and tells its length.
pub fn import_into(
    file_row: &[u8],
    batch_row: &[u8],
    lines: &[u8],
    room: &mut [u8],
) -> Result<usize, Refusal> {
    put_in(room, &import(file_row, batch_row, lines)?)
}

/// The entries of a table that can be written, as lines.
pub fn export(table: &[u8]) -> Result<Vec<u8>, Refusal> {
    write(Way::Plain, table)?;
    let table = Table::parse(table).expect("what can be written has the right shape");
    let mut lines = Vec::new();
    for row in table.entries {
        push_line(&mut lines, row);
    }
    Ok(lines)
}

/// Writes the lines of a table into the room lent, and tells their length.
pub fn export_into(table: &[u8], room: &mut [u8]) -> Result<usize, Refusal> {
    put_in(room, &export(table)?)
}

fn table_of(file_row: &[u8], batch_row: &[u8], entries: &[Record]) -> Vec<u8> {
    let mut count = [0; COUNT_LENGTH];
    put_digits(&mut count, entries.len() as u64);
    let batch = &batch_row[..BATCH_ROW - COUNT_LENGTH];
    let mut table = [b"000001", file_row, b"000001", batch, &count, &count].concat();
    table.reserve(ENTRY_ROW * entries.len() + COUNT_LENGTH);
    for entry in entries {
        table.extend_from_slice(&entry[ENTRY_PART]);
    }
    table.extend_from_slice(b"000000");
    table
}

/// An entry for each line, all but its trace; or the refusal of the first line that gives none.
fn entries_of(lines: &[u8]) -> Result<Vec<Record>, Refusal> {
    let mut rest = lines;
    let mut entries = Vec::new();
    while !rest.is_empty() {
        let line = entries.len() as u64 + 1;
        let refused = |(number, field)| Refusal { number, record: line, field };
        let fields = take_line(&mut rest).and_then(|fields| fields.try_into().ok());
        let fields = fields.ok_or(refused((reason::NO_LINE, 0)))?;
        entries.push(entry_of(&fields).map_err(refused)?);
    }
    Ok(entries)
}

/// Takes a line and its break, if it has one, from the front; nothing if that is no line.
fn take_line(rest: &mut &[u8]) -> Option<Vec<Vec<u8>>> {
    let mut fields = vec![take_field(rest)?];
    loop {
        match *rest {
            [] => return Some(fields),
            [b'\r', b'\n', behind @ ..] => {
                *rest = behind;
                return Some(fields);
            }
            [b',', behind @ ..] => {
                *rest = behind;
                fields.push(take_field(rest)?);
            }
            _ => return None,
        }
    }
}

fn take_field(rest: &mut &[u8]) -> Option<Vec<u8>> {
    if let [b'"', behind @ ..] = *rest {
        *rest = behind;
        return take_quoted(rest);
    }
    let end = rest.iter().position(|&byte| !is_text(byte)).unwrap_or(rest.len());
    let (field, behind) = rest.split_at(end);
    *rest = behind;
    Some(field.to_vec())
}

/// Takes what stands up to the closing quote, and that quote; nothing if there is none.
fn take_quoted(rest: &mut &[u8]) -> Option<Vec<u8>> {
    let mut field = Vec::new();
    loop {
        *rest = match *rest {
            [b'"', b'"', behind @ ..] => {
                field.push(b'"');
                behind
            }
            [b'"', behind @ ..] => {
                *rest = behind;
                return Some(field);
            }
            [byte, behind @ ..] if is_text(*byte) || matches!(byte, b',' | b'\r' | b'\n') => {
                field.push(*byte);
                behind
            }
            _ => return None,
        };
    }
}

/// The RFC's TEXTDATA.
fn is_text(byte: u8) -> bool {
    matches!(byte, 0x20..=0x21 | 0x23..=0x2B | 0x2D..=0x7E)
}

/// The record of a line, its trace still blank; or number and field of the refusal.
fn entry_of(fields: &[Vec<u8>; 6]) -> Result<Record, (u8, u8)> {
    let mut entry = [b' '; RECORD_LENGTH];
    for ((field, columns), number) in fields.iter().zip(COLUMNS).zip(1..) {
        let place = &mut entry[columns];
        if usize::from(number) == AMOUNT + 1 {
            put_digits(place, cents(field).ok_or((reason::LINE_AMOUNT, number))?);
        } else {
            let front = place.get_mut(..field.len()).ok_or((reason::LINE_FIELD_LENGTH, number))?;
            front.copy_from_slice(field);
        }
    }
    entry[NO_ADDENDUM] = b'0';
    Ok(entry)
}

/// The cents of one or more digits, a point and two digits, if ten digits are enough for them.
fn cents(amount: &[u8]) -> Option<u64> {
    let (whole, part) = amount.split_at_checked(amount.len().checked_sub(3)?)?;
    let (point, part) = part.split_at(1);
    if whole.is_empty() || point != b"." || !are_digits(whole) || !are_digits(part) {
        return None;
    }
    let zeros = whole.iter().take_while(|&&digit| digit == b'0').count();
    let digits = [&whole[zeros..], part].concat();
    (digits.len() <= COLUMNS[AMOUNT].len()).then(|| value(&digits))
}

fn push_line(lines: &mut Vec<u8>, row: &[u8; ENTRY_ROW]) {
    for (columns, index) in COLUMNS.into_iter().zip(0..) {
        let field = &row[columns.start - ENTRY_PART.start..columns.end - ENTRY_PART.start];
        lines.extend_from_slice(if index == 0 { b"\"" } else { b",\"" });
        if index == AMOUNT {
            let cents = value(field);
            lines.extend(format!("{}.{:02}", cents / 100, cents % 100).into_bytes());
        } else {
            push_text(lines, field);
        }
        lines.push(b'"');
    }
    lines.extend_from_slice(b"\r\n");
}

/// The text without the blanks behind it, every quote in it doubled.
fn push_text(lines: &mut Vec<u8>, field: &[u8]) {
    let end = field.iter().rposition(|&byte| byte != b' ').map_or(0, |last| last + 1);
    for &byte in &field[..end] {
        lines.push(byte);
        if byte == b'"' {
            lines.push(byte);
        }
    }
}
