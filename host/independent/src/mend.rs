//! Mending: controls and fillers put as the other records call for, with a list of the changes.

use crate::check::check;
use crate::field::{put_digits, Field};
use crate::layout::*;
use crate::outcome::{reason, Refusal};
use crate::records::{Records, Way};
use crate::sizes::{Record, FILLER, RECORDS_IN_BLOCK};
use crate::table::{put_in, Controls};

const COUNT_LENGTH: usize = 7;

#[derive(Clone, Debug, PartialEq, Eq)]
pub struct Mended {
    pub file: Vec<u8>,
    /// Three sections, each after a count of seven digits: the fields of batch controls that
    /// differ, those of the file control, and the number of fillers, if it is another. A filler
    /// that had but a wrong line end is not listed.
    pub changes: Vec<u8>,
}

/// The mended file and its changes, in memory of their own.
pub fn mend(way: Way, file: &[u8]) -> Result<Mended, Refusal> {
    let records = Records::of(way, file)?;
    let mut mending = Mending::new(way, file);
    let control = mending.mend_controls(records);
    if let Some(number) = control {
        mending.renew_fillers(number);
    }
    check(way, &mending.file)?;
    let control = control.expect("an accepted file has its control behind a batch control");
    require_fillers(records, control)?;
    let fillers = filler_change(records.count(), control);
    let changes = [mending.in_batches, mending.in_file, fillers].map(Section::text).concat();
    Ok(Mended { file: mending.file, changes })
}

/// Puts the mended file and its changes into the rooms lent, and tells both lengths.
pub fn mend_into(
    way: Way,
    file: &[u8],
    mended: &mut [u8],
    changes: &mut [u8],
) -> Result<(usize, usize), Refusal> {
    let found = mend(way, file)?;
    // Neither room is touched unless both are long enough.
    if changes.len() < found.changes.len() {
        return Err(Refusal::without_place(reason::ROOM));
    }
    Ok((put_in(mended, &found.file)?, put_in(changes, &found.changes)?))
}

/// Nothing but nines may have stood behind the file control, in its block or further on; how their
/// lines ended does not matter.
fn require_fillers(records: Records, control: usize) -> Result<(), Refusal> {
    let mut behind = records.iter().zip(1..).skip(control);
    match behind.find(|(record, _)| **record != FILLER) {
        Some((_, record)) => Err(Refusal { number: reason::RECORD_AFTER_BLOCK, record, field: 0 }),
        None => Ok(()),
    }
}

/// How many fillers there were behind the file control and how many there are, if that differs.
fn filler_change(records: usize, control: usize) -> Section {
    let old = records - control;
    let new = control.next_multiple_of(RECORDS_IN_BLOCK) - control;
    if old == new {
        return Section::default();
    }
    let sign = |fillers: usize| if fillers > 9 { b'+' } else { b'0' + fillers as u8 };
    Section { count: 1, rows: vec![sign(old), sign(new)] }
}

/// A part of the list of changes.
#[derive(Default)]
struct Section {
    count: u64,
    rows: Vec<u8>,
}

impl Section {
    /// Lists those of the fields in which the record of this number has changed.
    fn compare(&mut self, number: usize, fields: &[Field], old: &Record, new: &Record) {
        for field in fields.iter().filter(|field| field.of(old) != field.of(new)) {
            self.count += 1;
            push_digits(&mut self.rows, 7, number as u64);
            push_digits(&mut self.rows, 2, field.number().into());
            self.rows.extend_from_slice(field.of(old));
            self.rows.extend_from_slice(field.of(new));
        }
    }

    fn text(self) -> Vec<u8> {
        let mut text = Vec::with_capacity(COUNT_LENGTH + self.rows.len());
        push_digits(&mut text, COUNT_LENGTH, self.count);
        text.extend(self.rows);
        text
    }
}

fn push_digits(text: &mut Vec<u8>, places: usize, number: u64) {
    let start = text.len();
    text.resize(start + places, b'0');
    put_digits(&mut text[start..], number);
}

/// A copy of the lent file on its way to the mended one, and what the records passed come to.
struct Mending<'f> {
    way: Way,
    file: Vec<u8>,
    /// The latest record 5, if there was one.
    header: Option<&'f Record>,
    batches: u64,
    batch: Controls,
    whole: Controls,
    in_batches: Section,
    in_file: Section,
}

impl<'f> Mending<'f> {
    fn new(way: Way, file: &[u8]) -> Self {
        Mending {
            way,
            file: file.to_vec(),
            header: None,
            batches: 0,
            batch: Controls::default(),
            whole: Controls::default(),
            in_batches: Section::default(),
            in_file: Section::default(),
        }
    }

    /// Mends the batch controls up to the first 9 right behind an 8, and that 9; tells its number.
    fn mend_controls(&mut self, records: Records<'f>) -> Option<usize> {
        let mut type_before = None;
        for (record, number) in records.iter().zip(1..) {
            match record[0] {
                b'5' => self.open(record),
                b'6' => self.entry(record),
                b'7' => self.addendum(),
                b'8' => self.batch_control(number, record),
                b'9' if type_before == Some(b'8') => {
                    self.file_control(number, record);
                    return Some(number);
                }
                _ => (),
            }
            type_before = Some(record[0]);
        }
        None
    }

    fn open(&mut self, header: &'f Record) {
        self.header = Some(header);
        self.batches += 1;
        self.batch = Controls::default();
    }

    fn entry(&mut self, record: &Record) {
        self.batch.add_entry(record);
        self.whole.add_entry(record);
    }

    fn addendum(&mut self) {
        self.batch.count += 1;
        self.whole.count += 1;
    }

    /// A batch control without a header before it has nothing to be filled from.
    fn batch_control(&mut self, number: usize, old: &Record) {
        if let Some(header) = self.header {
            let new = self.batch.batch_control(header);
            self.in_batches.compare(number, &batch_control::ALL, old, &new);
            self.put(number, &new);
        }
    }

    fn file_control(&mut self, number: usize, old: &Record) {
        let new = self.whole.file_control(self.batches, number);
        self.in_file.compare(number, &file_control::ALL, old, &new);
        self.put(number, &new);
    }

    /// The line end stays as it is.
    fn put(&mut self, number: usize, record: &Record) {
        self.file[self.way.columns(number - 1)].copy_from_slice(record);
    }

    /// Puts fillers in the place of all that stands behind the file control.
    fn renew_fillers(&mut self, control: usize) {
        self.file.truncate(control * self.way.record_length());
        for _ in control..control.next_multiple_of(RECORDS_IN_BLOCK) {
            self.file.extend_from_slice(&FILLER);
            self.file.extend_from_slice(self.way.line_end());
        }
    }
}
