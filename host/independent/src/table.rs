//! The pay table: the parts of a file that somebody chose, without what follows from them.

use crate::check::check;
use crate::code::{Code, Side};
use crate::field::{are_digits, put_digits, value, Field};
use crate::layout::*;
use crate::outcome::{reason, Acceptance, Refusal};
use crate::records::{Records, Way};
use crate::sizes::{Record, FILLER, MOST_RECORDS, RECORDS_IN_BLOCK, RECORD_LENGTH};
use std::ops::Range;

pub const COUNT_LENGTH: usize = 6;
pub const HEADER_ROW: usize = 85;
pub const BATCH_ROW: usize = 95;
pub const ENTRY_ROW: usize = 93;
const ADDENDUM_ROW: usize = 80;

/// Columns 4-34 of record 1, which open its row, and columns 41-94, which close it.
const HEADER_LEFT: Range<usize> = 3..34;
const HEADER_RIGHT: Range<usize> = 40..94;
/// Columns 2-75 and 80-94 of record 5; the number of entries ends its row.
const BATCH_LEFT: Range<usize> = 1..75;
const BATCH_RIGHT: Range<usize> = 79..94;
/// Columns 2-94 of record 6.
pub const ENTRY_PART: Range<usize> = 1..94;

/// The pay table of a file.
pub fn read(way: Way, file: &[u8]) -> Result<Vec<u8>, Refusal> {
    let acceptance = check(way, file)?;
    let mut table = vec![0; table_length(&acceptance)];
    fill_table(Records::of(way, file)?, &acceptance, &mut table);
    Ok(table)
}

/// Writes the pay table of a file into the room lent, and tells its length.
pub fn read_into(way: Way, file: &[u8], room: &mut [u8]) -> Result<usize, Refusal> {
    let acceptance = check(way, file)?;
    let length = table_length(&acceptance);
    let table = room.get_mut(..length).ok_or(Refusal::without_place(reason::ROOM))?;
    fill_table(Records::of(way, file)?, &acceptance, table);
    Ok(length)
}

/// The file of this way that a pay table stands for.
pub fn write(way: Way, table: &[u8]) -> Result<Vec<u8>, Refusal> {
    let table = Table::parse(table).ok_or(Refusal::without_place(reason::TABLE_SHAPE))?;
    if table.records() > MOST_RECORDS {
        return Err(Refusal::without_place(reason::LENGTH));
    }
    let file = table.form(way);
    check(way, &file)?;
    Ok(file)
}

/// Writes the file that a pay table stands for into the room lent, and tells its length.
pub fn write_into(way: Way, table: &[u8], room: &mut [u8]) -> Result<usize, Refusal> {
    put_in(room, &write(way, table)?)
}

/// Puts a result into the front of the room, if it fits, and tells its length.
pub fn put_in(room: &mut [u8], result: &[u8]) -> Result<usize, Refusal> {
    let front = room.get_mut(..result.len()).ok_or(Refusal::without_place(reason::ROOM))?;
    front.copy_from_slice(result);
    Ok(result.len())
}

fn table_length(acceptance: &Acceptance) -> usize {
    4 * COUNT_LENGTH
        + HEADER_ROW
        + BATCH_ROW * acceptance.batches as usize
        + ENTRY_ROW * acceptance.entries as usize
        + ADDENDUM_ROW * acceptance.addenda as usize
}

/// Fills a table of exactly the right length from records that pass the check.
fn fill_table(records: Records, counts: &Acceptance, table: &mut [u8]) {
    let mut rest = table;
    let [header_row] = fill_section::<HEADER_ROW>(&mut rest, 1) else {
        unreachable!("one row was asked for")
    };
    let mut batch_rows = fill_section::<BATCH_ROW>(&mut rest, counts.batches).iter_mut();
    let mut entry_rows = fill_section::<ENTRY_ROW>(&mut rest, counts.entries).iter_mut();
    let mut addendum_rows = fill_section::<ADDENDUM_ROW>(&mut rest, counts.addenda).iter_mut();

    let due = "the check counted the rows";
    let mut batch_row = &mut [0; BATCH_ROW];
    let mut entries_in_batch = 0;
    for record in records.iter() {
        match record[0] {
            b'1' => join(header_row, &record[HEADER_LEFT], &record[HEADER_RIGHT]),
            b'5' => {
                batch_row = batch_rows.next().expect(due);
                entries_in_batch = 0;
                let (columns, _) = batch_row.split_at_mut(BATCH_ROW - COUNT_LENGTH);
                join(columns, &record[BATCH_LEFT], &record[BATCH_RIGHT]);
            }
            b'6' => {
                let row = entry_rows.next().expect(due);
                row.copy_from_slice(&record[ENTRY_PART]);
                entries_in_batch += 1;
            }
            b'7' => {
                let row = addendum_rows.next().expect(due);
                row.copy_from_slice(addendum::TEXT.of(record));
            }
            b'8' => put_digits(&mut batch_row[BATCH_ROW - COUNT_LENGTH..], entries_in_batch),
            // The file control: nothing but fillers comes after it.
            _ => break,
        }
    }
}

/// Writes a section's count at the front of the rest, and takes its rows from there.
fn fill_section<'t, const ROW: usize>(rest: &mut &'t mut [u8], rows: u64) -> &'t mut [[u8; ROW]] {
    let (count, after) = std::mem::take(rest).split_at_mut(COUNT_LENGTH);
    put_digits(count, rows);
    let (section, after) = after.split_at_mut(ROW * rows as usize);
    *rest = after;
    section.as_chunks_mut().0
}

fn join(row: &mut [u8], left: &[u8], right: &[u8]) {
    row[..left.len()].copy_from_slice(left);
    row[left.len()..].copy_from_slice(right);
}

/// A table of right shape.
pub struct Table<'t> {
    header: &'t [u8; HEADER_ROW],
    batches: &'t [[u8; BATCH_ROW]],
    pub entries: &'t [[u8; ENTRY_ROW]],
    addenda: &'t [[u8; ADDENDUM_ROW]],
}

impl<'t> Table<'t> {
    pub fn parse(bytes: &'t [u8]) -> Option<Table<'t>> {
        let mut rest = bytes;
        let header = section(&mut rest)?;
        let batches: &[[u8; BATCH_ROW]] = section(&mut rest)?;
        let entries: &[[u8; ENTRY_ROW]] = section(&mut rest)?;
        let addenda = section(&mut rest)?;
        let [header] = header else { return None };

        let mut entries_in_batches = 0;
        for batch in batches {
            entries_in_batches += number(&batch[BATCH_ROW - COUNT_LENGTH..])?;
        }
        let addenda_due = entries.iter().filter(|row| has_addendum(row)).count();
        let fits =
            rest.is_empty() && entries_in_batches == entries.len() && addenda_due == addenda.len();
        fits.then_some(Table { header, batches, entries, addenda })
    }

    /// How many records the formed file has, fillers included.
    fn records(&self) -> usize {
        let records = 2 + 2 * self.batches.len() + self.entries.len() + self.addenda.len();
        records.next_multiple_of(RECORDS_IN_BLOCK)
    }

    fn form(&self, way: Way) -> Vec<u8> {
        let mut former = Former::with_room_for(way, self.records());
        former.file_header(self.header);
        let mut entries = self.entries.iter();
        let mut addenda = self.addenda.iter();
        for batch in self.batches {
            let (columns, entry_count) = batch.split_at(BATCH_ROW - COUNT_LENGTH);
            former.batch_header(columns);
            for entry in entries.by_ref().take(value(entry_count) as usize) {
                former.entry(entry);
                if has_addendum(entry) {
                    former.addendum(addenda.next().expect("the shape is right"));
                }
            }
            former.batch_control();
        }
        former.file_control();
        former.file
    }
}

/// Takes a section, its count first, from the front of the rest.
fn section<'t, const ROW: usize>(rest: &mut &'t [u8]) -> Option<&'t [[u8; ROW]]> {
    let (count, after) = rest.split_at_checked(COUNT_LENGTH)?;
    let (rows, after) = after.split_at_checked(ROW * number(count)?)?;
    *rest = after;
    Some(rows.as_chunks().0)
}

fn number(digits: &[u8]) -> Option<usize> {
    are_digits(digits).then(|| value(digits) as usize)
}

fn has_addendum(entry_row: &[u8; ENTRY_ROW]) -> bool {
    let column_79 = 79 - 2;
    entry_row[column_79] == b'1'
}

/// What the controls of a batch or of the file say.
#[derive(Clone, Copy, Default)]
pub struct Controls {
    /// 6 and 7 records together.
    pub count: u64,
    hash: u64,
    debit: u64,
    pub credit: u64,
}

/// Puts a file together, record by record.
struct Former {
    way: Way,
    file: Vec<u8>,
    batch_header: Record,
    entry: Record,
    batches: u64,
    batch: Controls,
    whole: Controls,
}

impl Former {
    fn with_room_for(way: Way, records: usize) -> Self {
        Former {
            way,
            file: Vec::with_capacity(records * way.record_length()),
            batch_header: [b' '; RECORD_LENGTH],
            entry: [b' '; RECORD_LENGTH],
            batches: 0,
            batch: Controls::default(),
            whole: Controls::default(),
        }
    }

    fn push(&mut self, record: &Record) {
        self.file.extend_from_slice(record);
        self.file.extend_from_slice(self.way.line_end());
    }

    fn file_header(&mut self, row: &[u8; HEADER_ROW]) {
        let mut record = blank_record(b'1');
        let (left, right) = row.split_at(HEADER_LEFT.len());
        file_header::PRIORITY.put(&mut record, b"01");
        file_header::RECORD_SIZE.put(&mut record, b"094");
        file_header::BLOCKING.put(&mut record, b"10");
        file_header::FORMAT.put(&mut record, b"1");
        record[HEADER_LEFT].copy_from_slice(left);
        record[HEADER_RIGHT].copy_from_slice(right);
        self.push(&record);
    }

    fn batch_header(&mut self, columns: &[u8]) {
        let mut record = blank_record(b'5');
        let (left, right) = columns.split_at(BATCH_LEFT.len());
        record[BATCH_LEFT].copy_from_slice(left);
        batch_header::STATUS.put(&mut record, b"1");
        record[BATCH_RIGHT].copy_from_slice(right);
        self.push(&record);
        self.batch_header = record;
        self.batches += 1;
        self.batch = Controls::default();
    }

    fn entry(&mut self, row: &[u8; ENTRY_ROW]) {
        let mut record = blank_record(b'6');
        record[ENTRY_PART].copy_from_slice(row);
        self.push(&record);
        self.entry = record;
        for controls in [&mut self.batch, &mut self.whole] {
            controls.add_entry(&record);
        }
    }

    fn addendum(&mut self, text: &[u8; ADDENDUM_ROW]) {
        let mut record = blank_record(b'7');
        addendum::KIND.put(&mut record, b"05");
        addendum::TEXT.put(&mut record, text);
        addendum::SEQUENCE.put(&mut record, b"0001");
        let (_, trace) = entry::TRACE.of(&self.entry).split_at(8);
        addendum::ENTRY_TRACE.put(&mut record, trace);
        self.push(&record);
        self.batch.count += 1;
        self.whole.count += 1;
    }

    fn batch_control(&mut self) {
        let record = self.batch.batch_control(&self.batch_header);
        self.push(&record);
    }

    fn file_control(&mut self) {
        let record_number = self.file.len() / self.way.record_length() + 1;
        let record = self.whole.file_control(self.batches, record_number);
        self.push(&record);
        for _ in record_number..record_number.next_multiple_of(RECORDS_IN_BLOCK) {
            self.push(&FILLER);
        }
    }
}

impl Controls {
    /// An entry that is itself at fault is refused before any control is looked at, so what it
    /// adds does not matter.
    pub fn add_entry(&mut self, record: &Record) {
        let amount = number_or_zero(record, entry::AMOUNT);
        self.count += 1;
        self.hash += number_or_zero(record, entry::ROUTING);
        match Code::known(number_or_zero(record, entry::CODE)).map(|code| code.side) {
            Some(Side::Debit) => self.debit += amount,
            Some(Side::Credit) => self.credit += amount,
            None => (),
        }
    }

    /// The control of a batch whose entries come to this.
    pub fn batch_control(&self, header: &Record) -> Record {
        use batch_control::*;
        let mut record = blank_record(b'8');
        CLASS.put(&mut record, batch_header::CLASS.of(header));
        self.put_in_batch(&mut record);
        COMPANY_ID.put(&mut record, batch_header::COMPANY_ID.of(header));
        ORIGINATOR.put(&mut record, batch_header::ORIGINATOR.of(header));
        BATCH_NUMBER.put(&mut record, batch_header::BATCH_NUMBER.of(header));
        record
    }

    /// The control of a file whose entries come to this, as the record of the given number.
    pub fn file_control(&self, batches: u64, record_number: usize) -> Record {
        let mut record = blank_record(b'9');
        let blocks = record_number.div_ceil(RECORDS_IN_BLOCK);
        self.put_in_file(&mut record, batches, blocks as u64);
        record
    }

    pub fn put_in_batch(&self, record: &mut Record) {
        use batch_control::*;
        COUNT.put_number(record, self.count);
        HASH.put_number(record, self.hash);
        DEBIT.put_number(record, self.debit);
        CREDIT.put_number(record, self.credit);
    }

    pub fn put_in_file(&self, record: &mut Record, batches: u64, blocks: u64) {
        use file_control::*;
        BATCHES.put_number(record, batches);
        BLOCKS.put_number(record, blocks);
        COUNT.put_number(record, self.count);
        HASH.put_number(record, self.hash);
        DEBIT.put_number(record, self.debit);
        CREDIT.put_number(record, self.credit);
    }
}

fn blank_record(record_type: u8) -> Record {
    let mut record = [b' '; RECORD_LENGTH];
    record[0] = record_type;
    record
}

fn number_or_zero(record: &Record, field: Field) -> u64 {
    number(field.of(record)).map_or(0, |number| number as u64)
}
