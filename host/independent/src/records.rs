//! The two ways of a file, and a file as its records.

use crate::outcome::{reason, Refusal};
use crate::sizes::{Record, MOST_RECORDS, RECORD_LENGTH};
use std::ops::Range;

/// How the records of a file follow one another. The caller tells; nothing guesses it.
#[derive(Clone, Copy, Debug, PartialEq, Eq)]
pub enum Way {
    /// Back to back, without line ends: 94 bytes each.
    Plain,
    /// CR LF behind every record, filler included: 96 bytes each.
    Lined,
}

impl Way {
    pub const BOTH: [Way; 2] = [Way::Plain, Way::Lined];

    /// What has to stand behind the columns of every record.
    pub fn line_end(self) -> &'static [u8] {
        match self {
            Way::Plain => b"",
            Way::Lined => b"\r\n",
        }
    }

    /// How many bytes a record takes, its line end included.
    pub fn record_length(self) -> usize {
        RECORD_LENGTH + self.line_end().len()
    }

    /// Where the columns of a record stand in its file; the index counts from 0.
    pub(crate) fn columns(self, index: usize) -> Range<usize> {
        let start = index * self.record_length();
        start..start + RECORD_LENGTH
    }
}

/// A file whose length is right.
#[derive(Clone, Copy)]
pub(crate) struct Records<'f> {
    way: Way,
    file: &'f [u8],
}

impl<'f> Records<'f> {
    /// The file as records, if its length allows.
    pub fn of(way: Way, file: &'f [u8]) -> Result<Self, Refusal> {
        let length = way.record_length();
        let whole = !file.is_empty() && file.len().is_multiple_of(length);
        if !whole || file.len() > MOST_RECORDS * length {
            return Err(Refusal::without_place(reason::LENGTH));
        }
        Ok(Records { way, file })
    }

    pub fn count(self) -> usize {
        self.file.len() / self.way.record_length()
    }

    /// Every record: its columns, and whether its line end is the way's.
    pub fn with_ends(self) -> impl Iterator<Item = (&'f Record, bool)> {
        let Records { way, file } = self;
        file.chunks_exact(way.record_length()).map(move |bytes| {
            let (record, end) = bytes.split_first_chunk().expect("no record is shorter");
            (record, end == way.line_end())
        })
    }

    pub fn iter(self) -> impl Iterator<Item = &'f Record> {
        self.with_ends().map(|(record, _)| record)
    }

    pub fn get(self, index: usize) -> &'f Record {
        columns_of(&self.file[self.way.columns(index)])
    }
}

fn columns_of(bytes: &[u8]) -> &Record {
    bytes.try_into().expect("so many columns were taken")
}
