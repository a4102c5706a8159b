//! Recalled payments: entries taken out of a file, which is closed up behind them.

use crate::check::check;
use crate::outcome::{reason, Refusal};
use crate::records::{Records, Way};
use crate::sizes::{Record, FILLER, RECORDS_IN_BLOCK};
use crate::table::Controls;

/// Takes entries out, with their addenda and with the batches that they leave empty, and corrects
/// the controls and the fillers. Tells the new length; from there on the lent file is blanks. The
/// list of what is left goes to the front of the lent rows.
pub fn take_out(
    way: Way,
    file: &mut [u8],
    entries: &[u64],
    rows: &mut [u64],
) -> Result<usize, Refusal> {
    let held = check(way, file)?;
    let recalled = recalled(entries, held.entries)?;
    let batches = batches_left(Records::of(way, file)?, &recalled);
    let rows = rows.get_mut(..2 * batches).ok_or(Refusal::without_place(reason::ROOM))?;
    let mut closing = Closing::new(way, file, rows);
    let mut entries_before = 0;
    let mut taken = false;
    for index in 0.. {
        let record = closing.record(index);
        match record[0] {
            b'5' => closing.open(record),
            b'6' => {
                taken = recalled[entries_before];
                entries_before += 1;
                if !taken {
                    closing.entry(&record);
                }
            }
            b'7' if taken => (),
            b'7' => closing.addendum(&record),
            b'8' => closing.batch_control(record),
            b'9' => return Ok(closing.finish(record)),
            _ => closing.put(&record),
        }
    }
    unreachable!("a checked file has its file control")
}

/// Which entries of so many are to be taken out, however often and in whatever order the list has
/// them.
fn recalled(list: &[u64], entries: u64) -> Result<Vec<bool>, Refusal> {
    if list.iter().any(|entry| !(1..=entries).contains(entry)) {
        return Err(Refusal::without_place(reason::NO_SUCH_ENTRY));
    }
    let mut recalled = vec![false; entries as usize];
    for entry in list {
        recalled[*entry as usize - 1] = true;
    }
    if recalled.contains(&false) {
        Ok(recalled)
    } else {
        Err(Refusal::without_place(reason::NO_ENTRY_LEFT))
    }
}

/// How many batches keep an entry.
fn batches_left(records: Records, recalled: &[bool]) -> usize {
    let mut recalled = recalled.iter();
    let (mut batches, mut keeps_one) = (0, false);
    for record in records.iter() {
        match record[0] {
            b'5' => keeps_one = false,
            b'6' => keeps_one |= recalled.next() == Some(&false),
            b'8' => batches += usize::from(keeps_one),
            _ => (),
        }
    }
    batches
}

/// A file whose records move up. No record is put further back than it stood, so none is
/// overwritten before it has been looked at.
struct Closing<'f> {
    way: Way,
    file: &'f mut [u8],
    /// How many records stand in their new places.
    records: usize,
    batches: usize,
    /// Two numbers for each batch that is left.
    rows: &'f mut [u64],
    /// The header of the open batch, which is put when its first entry stays.
    header: Record,
    batch: Controls,
    whole: Controls,
}

impl<'f> Closing<'f> {
    fn new(way: Way, file: &'f mut [u8], rows: &'f mut [u64]) -> Self {
        Closing {
            way,
            file,
            records: 0,
            batches: 0,
            rows,
            header: FILLER,
            batch: Controls::default(),
            whole: Controls::default(),
        }
    }

    fn record(&self, index: usize) -> Record {
        self.file[self.way.columns(index)].try_into().expect("a record has its columns")
    }

    fn put(&mut self, record: &Record) {
        let columns = self.way.columns(self.records);
        let end = columns.end..columns.start + self.way.record_length();
        self.file[columns].copy_from_slice(record);
        self.file[end].copy_from_slice(self.way.line_end());
        self.records += 1;
    }

    fn open(&mut self, header: Record) {
        self.header = header;
        self.batch = Controls::default();
    }

    fn entry(&mut self, record: &Record) {
        if self.batch.count == 0 {
            let header = self.header;
            self.put(&header);
            self.batches += 1;
        }
        self.put(record);
        self.batch.add_entry(record);
        self.whole.add_entry(record);
    }

    fn addendum(&mut self, record: &Record) {
        self.put(record);
        self.batch.count += 1;
        self.whole.count += 1;
    }

    /// The control of a batch that is left empty goes with it.
    fn batch_control(&mut self, mut record: Record) {
        if self.batch.count > 0 {
            self.batch.put_in_batch(&mut record);
            self.put(&record);
            let row = [self.records as u64, self.whole.credit];
            self.rows[2 * self.batches - 2..2 * self.batches].copy_from_slice(&row);
        }
    }

    fn finish(mut self, mut record: Record) -> usize {
        let blocks = (self.records + 1).div_ceil(RECORDS_IN_BLOCK);
        self.whole.put_in_file(&mut record, self.batches as u64, blocks as u64);
        self.put(&record);
        while self.records < blocks * RECORDS_IN_BLOCK {
            self.put(&FILLER);
        }
        let length = self.records * self.way.record_length();
        self.file[length..].fill(b' ');
        length
    }
}
