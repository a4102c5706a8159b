//! The fields of every record type: number, name, columns, and what has to stand there.
//!
//! The proved library holds the columns and kinds in a table of its own. This copy adds names, for
//! those who have to explain a refusal; a test holds the two equal, row by row.
//!
//! ```
//! let entry = ach::fields::record_type(b'6').unwrap();
//! let amount = entry.field(6).unwrap();
//! assert_eq!((amount.name, amount.first, amount.last), ("Amount", 30, 39));
//! ```

/// How many columns a record has. [`Way::record_length`](crate::Way::record_length) tells how many
/// bytes it takes in a file.
pub const COLUMNS: usize = 94;

/// A rule that looks at its own field alone.
#[derive(Clone, Copy, Debug, PartialEq, Eq)]
pub enum Own {
    /// A blank and a bank's nine digits with their check digit.
    Destination,
    /// A blank or a digit, and nine digits.
    Origin,
    /// Hour and minute, or four blanks.
    Time,
    /// A capital letter or a digit.
    Modifier,
    /// 200, 220 or 225.
    Class,
    /// PPD or CCD.
    EntryClass,
    /// Eight digits, the first of them 0 to 3.
    Bank,
    /// Capital letters, digits and hyphens, then blanks.
    Account,
}

/// A rule that looks at another field or at an earlier record.
#[derive(Clone, Copy, Debug, PartialEq, Eq)]
pub enum Near {
    /// A known code that the batch's class and entry class allow.
    Code,
    /// The check digit of the bank before it.
    CheckDigit,
    /// Cents that the code carries.
    Amount,
    /// The batch's bank, and more than the entry before has.
    Trace,
    /// The end of the entry's trace number.
    EntryTrace,
    /// More than the batch before has.
    BatchNumber,
    /// Whether an addendum follows, as one does behind a zero-dollar remittance.
    Flag,
}

/// A sum that a control record repeats.
#[derive(Clone, Copy, Debug, PartialEq, Eq)]
pub enum Sum {
    /// Entries and addenda of the batch.
    BatchRecords,
    /// The bank numbers of the batch.
    BatchHash,
    /// The debits of the batch.
    BatchDebit,
    /// The credits of the batch.
    BatchCredit,
    /// The batches of the file.
    Batches,
    /// Records by ten, rounded up.
    Blocks,
    /// Entries and addenda of the file.
    FileRecords,
    /// The bank numbers of the file.
    FileHash,
    /// The debits of the file.
    FileDebit,
    /// The credits of the file.
    FileCredit,
}

/// What a field has to be.
#[derive(Clone, Copy, Debug, PartialEq, Eq)]
pub enum Kind {
    /// The record's type.
    Type,
    /// This number, with zeros in front.
    Fixed(u8),
    /// Nothing but blanks.
    Blanks,
    /// Digits.
    Digits,
    /// Text, or nothing but blanks.
    Optional,
    /// Text.
    Mandatory,
    /// A day, as YYMMDD.
    Date,
    /// As a rule on this field says.
    Own(Own),
    /// As a rule on this field and others says.
    Near(Near),
    /// What stands in the batch's header from this column on.
    AsBatch(u8),
    /// A count.
    Count(Sum),
    /// An entry hash.
    Hash(Sum),
    /// A total in cents.
    Total(Sum),
}

/// A field of a record.
#[derive(Clone, Copy, Debug, PartialEq, Eq)]
pub struct Field {
    /// What the field is called.
    pub name: &'static str,
    /// Its first column, counted from 1.
    pub first: usize,
    /// Its last column.
    pub last: usize,
    /// What has to stand there.
    pub kind: Kind,
}

/// A record type.
#[derive(Debug)]
pub struct RecordType {
    /// What stands in column 1.
    pub digit: u8,
    /// What such a record is called.
    pub name: &'static str,
    /// Its fields; the first one is field 1.
    pub fields: &'static [Field],
}

impl RecordType {
    /// The field of this number, counted from 1.
    pub fn field(&self, number: u8) -> Option<&'static Field> {
        self.fields.get(usize::from(number).checked_sub(1)?)
    }
}

impl Field {
    /// The field's part of a record, with its line end or without.
    ///
    /// ```
    /// let file = include_bytes!("../../../samples/whole.ach");
    /// let header = ach::fields::record_type(b'1').unwrap();
    /// assert_eq!(header.field(5).unwrap().of(&file[..94]), b"261113");
    /// ```
    pub fn of<'r>(&self, record: &'r [u8]) -> &'r [u8] {
        &record[self.first - 1..self.last]
    }

    /// How many columns the field has.
    pub fn width(&self) -> usize {
        self.last - self.first + 1
    }
}

/// The record type with this digit in column 1.
pub fn record_type(digit: u8) -> Option<&'static RecordType> {
    RECORD_TYPES.iter().find(|known| known.digit == digit)
}

const fn row(name: &'static str, first: usize, last: usize, kind: Kind) -> Field {
    Field { name, first, last, kind }
}

const TYPE: Field = row("Record type", 1, 1, Kind::Type);

/// All record types, in the order of their digits.
pub const RECORD_TYPES: [RecordType; 6] = [
    RecordType { digit: b'1', name: "file header", fields: &FILE_HEADER },
    RecordType { digit: b'5', name: "batch header", fields: &BATCH_HEADER },
    RecordType { digit: b'6', name: "entry", fields: &ENTRY },
    RecordType { digit: b'7', name: "addendum", fields: &ADDENDUM },
    RecordType { digit: b'8', name: "batch control", fields: &BATCH_CONTROL },
    RecordType { digit: b'9', name: "file control", fields: &FILE_CONTROL },
];

const FILE_HEADER: [Field; 13] = [
    TYPE,
    row("Priority code", 2, 3, Kind::Fixed(1)),
    row("Immediate destination", 4, 13, Kind::Own(Own::Destination)),
    row("Immediate origin", 14, 23, Kind::Own(Own::Origin)),
    row("File creation date", 24, 29, Kind::Date),
    row("File creation time", 30, 33, Kind::Own(Own::Time)),
    row("File ID modifier", 34, 34, Kind::Own(Own::Modifier)),
    row("Record size", 35, 37, Kind::Fixed(94)),
    row("Blocking factor", 38, 39, Kind::Fixed(10)),
    row("Format code", 40, 40, Kind::Fixed(1)),
    row("Immediate destination name", 41, 63, Kind::Optional),
    row("Immediate origin name", 64, 86, Kind::Optional),
    row("Reference code", 87, 94, Kind::Optional),
];

const BATCH_HEADER: [Field; 13] = [
    TYPE,
    row("Service class code", 2, 4, Kind::Own(Own::Class)),
    row("Company name", 5, 20, Kind::Mandatory),
    row("Company discretionary data", 21, 40, Kind::Optional),
    row("Company identification", 41, 50, Kind::Mandatory),
    row("Standard entry class code", 51, 53, Kind::Own(Own::EntryClass)),
    row("Company entry description", 54, 63, Kind::Mandatory),
    row("Company descriptive date", 64, 69, Kind::Optional),
    row("Effective entry date", 70, 75, Kind::Date),
    row("Settlement date", 76, 78, Kind::Blanks),
    row("Originator status code", 79, 79, Kind::Fixed(1)),
    row("Originating bank", 80, 87, Kind::Digits),
    row("Batch number", 88, 94, Kind::Near(Near::BatchNumber)),
];

const ENTRY: [Field; 11] = [
    TYPE,
    row("Transaction code", 2, 3, Kind::Near(Near::Code)),
    row("Receiving bank", 4, 11, Kind::Own(Own::Bank)),
    row("Check digit", 12, 12, Kind::Near(Near::CheckDigit)),
    row("Account number", 13, 29, Kind::Own(Own::Account)),
    row("Amount", 30, 39, Kind::Near(Near::Amount)),
    row("Identification number", 40, 54, Kind::Optional),
    row("Name", 55, 76, Kind::Mandatory),
    row("Discretionary data", 77, 78, Kind::Optional),
    row("Addenda record indicator", 79, 79, Kind::Near(Near::Flag)),
    row("Trace number", 80, 94, Kind::Near(Near::Trace)),
];

const ADDENDUM: [Field; 5] = [
    TYPE,
    row("Addenda type code", 2, 3, Kind::Fixed(5)),
    row("Payment related information", 4, 83, Kind::Optional),
    row("Addenda sequence number", 84, 87, Kind::Fixed(1)),
    row("Entry detail sequence number", 88, 94, Kind::Near(Near::EntryTrace)),
];

const BATCH_CONTROL: [Field; 11] = [
    TYPE,
    row("Service class code", 2, 4, Kind::AsBatch(2)),
    row("Entry and addenda count", 5, 10, Kind::Count(Sum::BatchRecords)),
    row("Entry hash", 11, 20, Kind::Hash(Sum::BatchHash)),
    row("Total debit amount", 21, 32, Kind::Total(Sum::BatchDebit)),
    row("Total credit amount", 33, 44, Kind::Total(Sum::BatchCredit)),
    row("Company identification", 45, 54, Kind::AsBatch(41)),
    row("Message authentication code", 55, 73, Kind::Blanks),
    row("Reserved", 74, 79, Kind::Blanks),
    row("Originating bank", 80, 87, Kind::AsBatch(80)),
    row("Batch number", 88, 94, Kind::AsBatch(88)),
];

const FILE_CONTROL: [Field; 8] = [
    TYPE,
    row("Batch count", 2, 7, Kind::Count(Sum::Batches)),
    row("Block count", 8, 13, Kind::Count(Sum::Blocks)),
    row("Entry and addenda count", 14, 21, Kind::Count(Sum::FileRecords)),
    row("Entry hash", 22, 31, Kind::Hash(Sum::FileHash)),
    row("Total debit amount", 32, 43, Kind::Total(Sum::FileDebit)),
    row("Total credit amount", 44, 55, Kind::Total(Sum::FileCredit)),
    row("Reserved", 56, 94, Kind::Blanks),
];
