//! What a question about a file can be answered with.

/// The numbers a refusal is given, as the scope paper and its requests list them.
pub mod reason {
    pub const LENGTH: u8 = 1;
    pub const DATA_END: u8 = 2;
    pub const RECORD_TYPE: u8 = 3;
    pub const RECORD_AFTER_BLOCK: u8 = 4;
    pub const FIXED_TEXT: u8 = 5;
    pub const NOT_DIGITS: u8 = 6;
    pub const CHARACTER: u8 = 7;
    pub const ALL_BLANK: u8 = 8;
    pub const MISPLACED_BLANK: u8 = 9;
    pub const NO_SUCH_DAY_OR_TIME: u8 = 10;
    pub const UNKNOWN_VALUE: u8 = 11;
    pub const CHECK_DIGIT: u8 = 12;
    pub const ROUTING_FIRST_DIGIT: u8 = 13;
    pub const AMOUNT: u8 = 14;
    pub const SIDE_OF_CLASS: u8 = 15;
    pub const TRACE: u8 = 16;
    pub const BATCH_NUMBER: u8 = 17;
    pub const COUNT: u8 = 18;
    pub const HASH: u8 = 19;
    pub const SUM_TOO_LARGE: u8 = 20;
    pub const TOTAL: u8 = 21;
    pub const NOT_AS_IN_HEADER: u8 = 22;
    pub const ROOM: u8 = 23;
    pub const TABLE_SHAPE: u8 = 24;
    pub const NO_SUCH_ENTRY: u8 = 25;
    pub const LINE_END: u8 = 26;
    pub const NO_ENTRY_LEFT: u8 = 27;
    /// A zero-dollar remittance in a PPD batch, or without its addendum.
    pub const REMITTANCE: u8 = 28;
    /// These three are of a client's list, and its line stands for the record.
    pub const NO_LINE: u8 = 29;
    pub const LINE_AMOUNT: u8 = 30;
    pub const LINE_FIELD_LENGTH: u8 = 32;
    /// What is lent with an alteration does not begin with the file's list.
    pub const NOT_ITS_LIST: u8 = 34;
}

/// Why something was refused, and where; record and field are 0 where there is no place to name.
#[derive(Clone, Copy, Debug, PartialEq, Eq)]
pub struct Refusal {
    pub number: u8,
    pub record: u64,
    pub field: u8,
}

impl Refusal {
    pub(crate) const fn without_place(number: u8) -> Self {
        Refusal { number, record: 0, field: 0 }
    }
}

/// What an accepted file holds.
#[derive(Clone, Copy, Debug, Default, PartialEq, Eq)]
pub struct Acceptance {
    pub batches: u64,
    pub entries: u64,
    pub addenda: u64,
    pub debit: u64,
    pub credit: u64,
    /// How many entries and how many cents, for the codes 22, 23, 24, 27, 28, 29, 32, 33, 34, 37, 38,
    /// 39 in turn.
    pub by_code: [u64; 24],
}

/// The line of the check program.
pub fn line(outcome: &Result<Acceptance, Refusal>) -> String {
    let (word, numbers) = match *outcome {
        Ok(held) => ("OK", vec![held.batches, held.entries, held.addenda, held.debit, held.credit]),
        Err(no) => ("NO", vec![no.number.into(), no.record, no.field.into()]),
    };
    let spelled: String = numbers.iter().map(|number| format!(" {number}")).collect();
    format!("{word}{spelled}")
}
