//! The two ways of a file.

use crate::fields::COLUMNS;
use crate::sizes::EMPTY_TABLE;

const MOST_RECORDS: usize = 1_000_000;
const RECORDS_IN_BLOCK: usize = 10;

/// The changes without a row: three counts of seven digits.
const EMPTY_CHANGES: usize = 3 * 7;
/// A changed field takes nine digits and its columns twice; all fields but the first have 93 columns.
const BATCH_CHANGES: usize = 10 * 9 + 2 * 93;
/// The seven fields of the file control, and the two numbers of fillers.
const FILE_CHANGES: usize = 7 * 9 + 2 * 93 + 2;

/// How the records of a file follow one another.
///
/// The caller tells the way; nothing guesses it from the bytes. Columns, fields and record numbers
/// are the same in both, and a pay table is the same for both.
///
/// ```
/// use ach::Way;
///
/// let file = include_bytes!("../../../samples/whole-lined.ach");
/// assert_eq!(ach::check(Way::Lined, file)?.credit, 12_550);
/// assert_eq!(ach::check(Way::Plain, file).unwrap_err().number, 1);
///
/// let mut wrong = *file;
/// wrong[94] = b' ';
/// let refusal = ach::check(Way::Lined, &wrong).unwrap_err();
/// assert_eq!((refusal.number, refusal.record, refusal.field), (26, 1, 0));
/// # Ok::<(), ach::Refusal>(())
/// ```
#[derive(Clone, Copy, Debug, Default, PartialEq, Eq, Hash)]
pub enum Way {
    /// Records of 94 bytes, back to back, without line ends.
    #[default]
    Plain,
    /// CR LF behind every record, fillers and the last record included: 96 bytes each.
    Lined,
}

impl Way {
    /// Both ways, the first one first.
    pub const BOTH: [Way; 2] = [Way::Plain, Way::Lined];

    /// What stands behind the columns of every record.
    pub const fn line_end(self) -> &'static [u8] {
        match self {
            Way::Plain => b"",
            Way::Lined => b"\r\n",
        }
    }

    /// How many bytes a record takes, its line end included.
    ///
    /// ```
    /// assert_eq!(ach::Way::Plain.record_length(), 94);
    /// assert_eq!(ach::Way::Lined.record_length(), 96);
    /// ```
    pub const fn record_length(self) -> usize {
        COLUMNS + self.line_end().len()
    }

    /// The length of the longest file: a million records.
    ///
    /// ```
    /// assert_eq!(ach::Way::Plain.longest_file(), 94_000_000);
    /// assert_eq!(ach::Way::Lined.longest_file(), 96_000_000);
    /// ```
    pub const fn longest_file(self) -> usize {
        MOST_RECORDS * self.record_length()
    }

    /// Room that suffices for the file of any pay table of this length that has one.
    ///
    /// ```
    /// let table = include_bytes!("../../../samples/whole.table");
    /// let mut room = vec![0; ach::Way::Lined.room_for_file(table.len())];
    /// assert_eq!(ach::write(ach::Way::Lined, table, &mut room)?, 960);
    /// # Ok::<(), ach::Refusal>(())
    /// ```
    pub fn room_for_file(self, table_length: usize) -> usize {
        // Header, file control and nine fillers, less what twice an empty table gives for them.
        // Twice a row of 93 or 80 bytes is more than its record. Twice a batch's 95 bytes may be
        // two bytes less than its two records, but there is an entry in every batch.
        let least = 11 * self.record_length() - 2 * EMPTY_TABLE;
        let enough = table_length.saturating_mul(2).saturating_add(least);
        enough.min(self.longest_file())
    }

    /// Room that suffices for the rows of any file of this length, in numbers, of which a row has
    /// two.
    ///
    /// ```
    /// use ach::Way;
    ///
    /// let file = include_bytes!("../../../samples/whole.ach");
    /// let mut room = vec![0; Way::Plain.room_for_rows(file.len())];
    /// ach::check_into(Way::Plain, file, &mut room)?;
    /// assert_eq!(room[..2], [6, 12_550]);
    /// # Ok::<(), ach::Refusal>(())
    /// ```
    pub const fn room_for_rows(self, file_length: usize) -> usize {
        2 * self.most_batches(file_length)
    }

    /// Room that suffices for the mended file of any file of this length that has one.
    ///
    /// ```
    /// use ach::Way;
    ///
    /// assert_eq!(Way::Plain.room_for_mended(7 * 94), 940);
    /// assert_eq!(Way::Lined.room_for_mended(11 * 96), 1_920);
    /// assert_eq!(Way::Plain.room_for_mended(usize::MAX), 94_000_000);
    /// ```
    pub const fn room_for_mended(self, file_length: usize) -> usize {
        // No record is put in before the fillers, which fill the last block.
        self.records(file_length).next_multiple_of(RECORDS_IN_BLOCK) * self.record_length()
    }

    /// Room that suffices for the list of what is changed when a file of this length is mended.
    ///
    /// ```
    /// use ach::Way;
    ///
    /// assert_eq!(Way::Plain.room_for_changes(0), 272);
    /// assert_eq!(Way::Plain.room_for_changes(8 * 94), 272 + 2 * 276);
    /// assert_eq!(Way::Lined.room_for_changes(8 * 96), 272 + 2 * 276);
    /// assert_eq!(Way::Plain.room_for_changes(usize::MAX), 91_999_904);
    /// ```
    pub const fn room_for_changes(self, file_length: usize) -> usize {
        EMPTY_CHANGES + BATCH_CHANGES * self.most_batches(file_length) + FILE_CHANGES
    }

    /// How many records a file of this length has, if its length is that of a file.
    const fn records(self, file_length: usize) -> usize {
        let records = file_length / self.record_length();
        if records < MOST_RECORDS {
            records
        } else {
            MOST_RECORDS
        }
    }

    /// Beside header and file control, a batch has at least its own two and an entry.
    const fn most_batches(self, file_length: usize) -> usize {
        self.records(file_length).saturating_sub(2) / 3
    }

    /// The number that stands for the way at the boundary.
    pub(crate) const fn number(self) -> u64 {
        match self {
            Way::Plain => 0,
            Way::Lined => 1,
        }
    }
}
