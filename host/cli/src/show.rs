//! A file as a page: its batches and entries from the table that the library reads, its totals
//! from the library's check.

use crate::formed::{batch_header, entry, file_header, Sections};
use crate::money::{of_digits, spelled};
use ach::fields::record_type;
use ach::Acceptance;
use std::io::{self, Write};

pub fn page(name: &str, table: &[u8], held: &Acceptance, to: &mut impl Write) -> io::Result<()> {
    let sections = Sections::of(table).expect("the library's table has the right shape");
    file_lines(name, sections.header, to)?;
    let mut entries = sections.entries().zip(1..);
    for batch in sections.batches() {
        batch_line(&batch_header(batch.row), to)?;
        for ((row, addendum), number) in entries.by_ref().take(batch.entries) {
            entry_line(number, &entry(row), to)?;
            if let Some(text) = addendum {
                writeln!(to, "{:10}addendum: {}", "", trimmed(text))?;
            }
        }
    }
    totals(held, to)
}

fn file_lines(name: &str, row: &[u8], to: &mut impl Write) -> io::Result<()> {
    let header = file_header(row);
    let field = |number| text(b'1', number, &header);
    writeln!(to, "{name}: file {} of {}, {}", field(7), day(&field(5)), time(&field(6)))?;
    writeln!(to, "from {} {}", field(4).trim(), field(12))?;
    writeln!(to, "to   {} {}", field(3).trim(), field(11))
}

fn batch_line(header: &[u8], to: &mut impl Write) -> io::Result<()> {
    let field = |number| text(b'5', number, header);
    let side = match field(2).as_str() {
        "220" => "credits",
        "225" => "debits",
        _ => "credits and debits",
    };
    let (number, day) = (field(13), day(&field(9)));
    let (company, purpose, class) = (field(3), field(7), field(6));
    writeln!(to, "\nbatch {number}: {company}, {purpose}, {class} {side}, due {day}")?;
    let [entry, code, bank, account, amount, name] = HEADINGS;
    writeln!(to, "{entry:>8}  {code:<4}  {bank:<9}  {account:<17}  {amount:>11}  {name}")
}

const HEADINGS: [&str; 6] = ["entry", "code", "bank", "account", "amount", "name"];

fn entry_line(number: u64, entry: &[u8], to: &mut impl Write) -> io::Result<()> {
    let field = |number| text(b'6', number, entry);
    let (code, bank, digit, account) = (field(2), field(3), field(4), field(5));
    let amount = spelled(of_digits(field(6).as_bytes()));
    let (name, identification) = (field(8), field(7));
    let line = format!(
        "{number:>8}  {code:<4}  {bank}{digit}  {account:<17}  {amount:>11}  {name:<22}  {identification}"
    );
    writeln!(to, "{}", line.trim_end())
}

fn totals(held: &Acceptance, to: &mut impl Write) -> io::Result<()> {
    writeln!(to, "\ncode                             entries           amount")?;
    for (code, row) in ach::CODES.iter().zip(held.by_code.chunks_exact(2)) {
        let about = about(*code);
        writeln!(to, "{code} {about:<27} {:>9} {:>16}", row[0], spelled(row[1]))?;
    }
    writeln!(to, "all debits {:>46}", spelled(held.debit))?;
    writeln!(to, "all credits {:>45}", spelled(held.credit))?;
    writeln!(to, "batches {}, entries {}, addenda {}", held.batches, held.entries, held.addenda)
}

fn about(code: u8) -> &'static str {
    match code {
        22 => "checking, credit",
        23 => "checking, credit prenote",
        24 => "checking, credit remittance",
        27 => "checking, debit",
        28 => "checking, debit prenote",
        29 => "checking, debit remittance",
        32 => "savings, credit",
        33 => "savings, credit prenote",
        34 => "savings, credit remittance",
        37 => "savings, debit",
        38 => "savings, debit prenote",
        _ => "savings, debit remittance",
    }
}

/// A field without the blanks behind it.
fn text(digit: u8, number: u8, record: &[u8]) -> String {
    let field = record_type(digit).and_then(|known| known.field(number));
    field.map(|field| trimmed(field.of(record))).unwrap_or_default()
}

pub fn trimmed(bytes: &[u8]) -> String {
    String::from_utf8_lossy(bytes).trim_end().to_string()
}

/// 261113 as 2026-11-13.
fn day(digits: &str) -> String {
    format!("20{}-{}-{}", &digits[..2], &digits[2..4], &digits[4..])
}

fn time(digits: &str) -> String {
    match digits {
        "" => "no time".into(),
        _ => format!("{}:{}", &digits[..2], &digits[2..]),
    }
}
