//! The columns of every field, held once.

use crate::field::{field, Field};

/// Record 1.
pub mod file_header {
    use super::*;
    pub const PRIORITY: Field = field(2, 2, 3);
    pub const DESTINATION: Field = field(3, 4, 13);
    pub const ORIGIN: Field = field(4, 14, 23);
    pub const DATE: Field = field(5, 24, 29);
    pub const TIME: Field = field(6, 30, 33);
    pub const MODIFIER: Field = field(7, 34, 34);
    pub const RECORD_SIZE: Field = field(8, 35, 37);
    pub const BLOCKING: Field = field(9, 38, 39);
    pub const FORMAT: Field = field(10, 40, 40);
    pub const DESTINATION_NAME: Field = field(11, 41, 63);
    pub const ORIGIN_NAME: Field = field(12, 64, 86);
    pub const REFERENCE: Field = field(13, 87, 94);
}

/// Record 5.
pub mod batch_header {
    use super::*;
    pub const CLASS: Field = field(2, 2, 4);
    pub const COMPANY_NAME: Field = field(3, 5, 20);
    pub const COMPANY_DATA: Field = field(4, 21, 40);
    pub const COMPANY_ID: Field = field(5, 41, 50);
    pub const ENTRY_CLASS: Field = field(6, 51, 53);
    pub const DESCRIPTION: Field = field(7, 54, 63);
    pub const DESCRIPTIVE_DATE: Field = field(8, 64, 69);
    pub const EFFECTIVE_DATE: Field = field(9, 70, 75);
    pub const SETTLEMENT: Field = field(10, 76, 78);
    pub const STATUS: Field = field(11, 79, 79);
    pub const ORIGINATOR: Field = field(12, 80, 87);
    pub const BATCH_NUMBER: Field = field(13, 88, 94);
}

/// Record 6.
pub mod entry {
    use super::*;
    pub const CODE: Field = field(2, 2, 3);
    pub const ROUTING: Field = field(3, 4, 11);
    pub const CHECK_DIGIT: Field = field(4, 12, 12);
    pub const ACCOUNT: Field = field(5, 13, 29);
    pub const AMOUNT: Field = field(6, 30, 39);
    pub const IDENTIFICATION: Field = field(7, 40, 54);
    pub const NAME: Field = field(8, 55, 76);
    pub const DISCRETIONARY: Field = field(9, 77, 78);
    pub const ADDENDUM: Field = field(10, 79, 79);
    pub const TRACE: Field = field(11, 80, 94);
}

/// Record 7.
pub mod addendum {
    use super::*;
    pub const KIND: Field = field(2, 2, 3);
    pub const TEXT: Field = field(3, 4, 83);
    pub const SEQUENCE: Field = field(4, 84, 87);
    pub const ENTRY_TRACE: Field = field(5, 88, 94);
}

/// Record 8.
pub mod batch_control {
    use super::*;
    pub const CLASS: Field = field(2, 2, 4);
    pub const COUNT: Field = field(3, 5, 10);
    pub const HASH: Field = field(4, 11, 20);
    pub const DEBIT: Field = field(5, 21, 32);
    pub const CREDIT: Field = field(6, 33, 44);
    pub const COMPANY_ID: Field = field(7, 45, 54);
    pub const AUTHENTICATION: Field = field(8, 55, 73);
    pub const RESERVED: Field = field(9, 74, 79);
    pub const ORIGINATOR: Field = field(10, 80, 87);
    pub const BATCH_NUMBER: Field = field(11, 88, 94);
    /// All but the record type.
    pub const ALL: [Field; 10] = [
        CLASS,
        COUNT,
        HASH,
        DEBIT,
        CREDIT,
        COMPANY_ID,
        AUTHENTICATION,
        RESERVED,
        ORIGINATOR,
        BATCH_NUMBER,
    ];
}

/// Record 9.
pub mod file_control {
    use super::*;
    pub const BATCHES: Field = field(2, 2, 7);
    pub const BLOCKS: Field = field(3, 8, 13);
    pub const COUNT: Field = field(4, 14, 21);
    pub const HASH: Field = field(5, 22, 31);
    pub const DEBIT: Field = field(6, 32, 43);
    pub const CREDIT: Field = field(7, 44, 55);
    pub const RESERVED: Field = field(8, 56, 94);
    /// All but the record type.
    pub const ALL: [Field; 7] = [BATCHES, BLOCKS, COUNT, HASH, DEBIT, CREDIT, RESERVED];
}
