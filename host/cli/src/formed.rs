//! The records that a pay table's rows become, so that a refusal of `write` can be explained by
//! what stands in them. Nothing that is decided or written comes from here. The records stand back
//! to back whatever way is asked for, since a refusal's record and field are the same in both.

use ach::{BATCH_ROW, FILE_ROW};

pub const COUNT: usize = 6;
const ENTRY_ROW: usize = 93;
const ADDENDUM_ROW: usize = 80;
/// Column 79 in an entry's row, which begins with column 2.
const FLAG: usize = 79 - 2;

/// The sections of a table of right shape.
pub struct Sections<'t> {
    pub header: &'t [u8],
    pub batches: &'t [u8],
    pub entries: &'t [u8],
    pub addenda: &'t [u8],
}

/// A batch's row, and how many entries it has.
pub struct BatchRow<'t> {
    pub row: &'t [u8],
    pub entries: usize,
}

impl<'t> Sections<'t> {
    /// Nothing if the table is shorter than its counts say.
    pub fn of(table: &'t [u8]) -> Option<Self> {
        let mut rest = table;
        let mut section = |width| {
            let rows = number(rest.get(..COUNT)?) * width;
            let part = rest.get(COUNT..COUNT + rows)?;
            rest = &rest[COUNT + rows..];
            Some(part)
        };
        Some(Sections {
            header: section(FILE_ROW).filter(|rows| !rows.is_empty())?,
            batches: section(BATCH_ROW)?,
            entries: section(ENTRY_ROW)?,
            addenda: section(ADDENDUM_ROW)?,
        })
    }

    pub fn batches(&self) -> impl Iterator<Item = BatchRow<'t>> {
        self.batches.chunks_exact(BATCH_ROW).map(|row| BatchRow {
            row: &row[..BATCH_ROW - COUNT],
            entries: number(&row[BATCH_ROW - COUNT..]),
        })
    }

    /// Every entry's row with its addendum's, in order through the file.
    pub fn entries(&self) -> impl Iterator<Item = (&'t [u8], Option<&'t [u8]>)> {
        let mut addenda = self.addenda.chunks_exact(ADDENDUM_ROW);
        self.entries.chunks_exact(ENTRY_ROW).map(move |row| {
            let addendum = if row[FLAG] == b'1' { addenda.next() } else { None };
            (row, addendum)
        })
    }
}

fn number(digits: &[u8]) -> usize {
    crate::money::of_digits(digits) as usize
}

pub fn file_header(row: &[u8]) -> Vec<u8> {
    [b"101", &row[..31], b"094101", &row[31..]].concat()
}

pub fn batch_header(row: &[u8]) -> Vec<u8> {
    [b"5", &row[..74], b"   1", &row[74..]].concat()
}

pub fn entry(row: &[u8]) -> Vec<u8> {
    [b"6", row].concat()
}

fn addendum(row: &[u8], entry: &[u8]) -> Vec<u8> {
    [b"705", row, b"0001", &entry[ENTRY_ROW - 7..]].concat()
}

/// A control of which nothing is known but its type.
fn control(digit: u8) -> Vec<u8> {
    let mut record = vec![b' '; ach::fields::COLUMNS];
    record[0] = digit;
    record
}

/// The records up to and with the one of this number; those that sums go into only by their type.
pub fn records(table: &[u8], most: usize) -> Vec<u8> {
    let Some(sections) = Sections::of(table) else {
        return Vec::new();
    };
    let mut file = file_header(sections.header);
    let enough = most * ach::fields::COLUMNS;
    let mut entries = sections.entries();
    for batch in sections.batches() {
        file.extend(batch_header(batch.row));
        for (row, text) in entries.by_ref().take(batch.entries) {
            file.extend(entry(row));
            file.extend(text.map(|text| addendum(text, row)).unwrap_or_default());
        }
        file.extend(control(b'8'));
        if file.len() >= enough {
            break;
        }
    }
    file.extend(control(b'9'));
    file.truncate(enough);
    file
}

#[cfg(test)]
mod tests {
    use super::*;
    use generate::{plan, sample, Random};

    #[test]
    fn the_records_are_those_of_the_file() {
        let mut random = Random::new(11);
        let mut plans = vec![sample()];
        plans.extend((0..200).map(|_| plan(&mut random, 4, 6)));
        for plan in plans {
            let (file, table) = (plan.file(), plan.table());
            let total = file.len() / 94;
            let made = records(&table, total);
            for (made, true_one) in made.chunks(94).zip(file.chunks(94)) {
                let summed = matches!(true_one[0], b'8' | b'9');
                let known = if summed { 1 } else { 94 };
                assert_eq!(made[..known], true_one[..known]);
            }
            assert_eq!(records(&table, 3), made[..3 * 94]);
        }
    }

    #[test]
    fn a_table_that_is_none_has_no_records() {
        assert_eq!(records(b"", 10), b"");
        assert_eq!(records(b"000001", 10), b"");
        assert_eq!(records(b"000000000000000000000000", 10), b"");
    }
}
