//! The check: every record in order, every field in order, up to the first refusal.

use crate::code::{Code, Side};
use crate::field::{all, are_digits, check_digit, is_blank, value, Fault, Field};
use crate::layout::*;
use crate::outcome::{reason, Acceptance, Refusal};
use crate::records::{Records, Way};
use crate::sizes::{Record, FILLER, RECORDS_IN_BLOCK, RECORD_LENGTH};

pub const LARGEST_TOTAL: u64 = 999_999_999_999;
const HASH_MODULUS: u64 = 10_000_000_000;

/// Tells what an ACH file of this way holds, or the first reason why it is none.
pub fn check(way: Way, file: &[u8]) -> Result<Acceptance, Refusal> {
    checked(way, file).map(|(held, _)| held)
}

/// What the file holds, and the list that goes with it.
pub(crate) fn checked(way: Way, file: &[u8]) -> Result<(Acceptance, Vec<u64>), Refusal> {
    let records = Records::of(way, file)?;
    let mut checker = Checker::new();
    let mut allowed: &[u8] = b"1";
    for ((record, ended), number) in records.with_ends().zip(1..) {
        if !allowed.contains(&record[0]) {
            return Err(refusal(reason::RECORD_TYPE, number, 1));
        }
        allowed = checker.record(number, record).map_err(|fault| fault.at(number))?;
        require_end(ended, number)?;
        if record[0] == b'9' {
            check_fillers(records, number)?;
            return Ok((checker.acceptance, checker.rows));
        }
    }
    Err(data_end(records))
}

/// The line end is tried when all fields of its record are in order.
fn require_end(ended: bool, record: u64) -> Result<(), Refusal> {
    if ended {
        Ok(())
    } else {
        Err(refusal(reason::LINE_END, record, 0))
    }
}

/// Looks at what follows the file control, which is the record of the given number.
fn check_fillers(records: Records, control: u64) -> Result<(), Refusal> {
    let block_end = control.next_multiple_of(RECORDS_IN_BLOCK as u64);
    let mut behind = records.with_ends().skip(control as usize);
    for number in control + 1..=block_end {
        let (record, ended) = behind.next().ok_or_else(|| data_end(records))?;
        if *record != FILLER {
            return Err(refusal(reason::FIXED_TEXT, number, 0));
        }
        require_end(ended, number)?;
    }
    // Whatever stands behind the block is too much, its line end right or wrong.
    if behind.next().is_some() {
        return Err(refusal(reason::RECORD_AFTER_BLOCK, block_end + 1, 0));
    }
    Ok(())
}

fn refusal(number: u8, record: u64, field: u8) -> Refusal {
    Refusal { number, record, field }
}

fn data_end(records: Records) -> Refusal {
    refusal(reason::DATA_END, records.count() as u64 + 1, 0)
}

/// What the entries of a batch, or of the whole file, come to.
#[derive(Clone, Copy, Default)]
struct Sums {
    /// 6 and 7 records together.
    records: u64,
    /// The sum of routing numbers, not yet cut to its ten digits.
    routing: u64,
    debit: u64,
    credit: u64,
}

impl Sums {
    fn add(&mut self, other: Sums) {
        self.records += other.records;
        self.routing += other.routing;
        self.debit += other.debit;
        self.credit += other.credit;
    }

    fn hash(&self) -> u64 {
        self.routing % HASH_MODULUS
    }
}

/// The batch that is open; `header` is its record 5.
struct Batch<'f> {
    header: &'f Record,
    class: u64,
    number: u64,
    /// The last seven digits of the latest entry's trace, 0 before the first entry.
    trace: u64,
    sums: Sums,
}

/// What has to be remembered of the records passed.
struct Checker<'f> {
    batch: Batch<'f>,
    sums: Sums,
    acceptance: Acceptance,
    /// For each batch its control's record number and the credits so far.
    rows: Vec<u64>,
}

/// Stands in for the header of the batch before the first one.
const NO_HEADER: &Record = &[b' '; RECORD_LENGTH];

impl<'f> Checker<'f> {
    fn new() -> Self {
        Checker {
            batch: Batch {
                header: NO_HEADER,
                class: 0,
                number: 0,
                trace: 0,
                sums: Sums::default(),
            },
            sums: Sums::default(),
            acceptance: Acceptance::default(),
            rows: Vec::new(),
        }
    }

    /// Checks a record whose type is allowed, and gives the types that are allowed next.
    fn record(&mut self, number: u64, record: &'f Record) -> Result<&'static [u8], Fault> {
        match record[0] {
            b'1' => check_file_header(record).map(|()| b"5".as_slice()),
            b'5' => self.batch_header(record).map(|()| b"6".as_slice()),
            b'6' => self.entry(record),
            b'7' => self.addendum(record).map(|()| b"68".as_slice()),
            b'8' => self.batch_control(number, record).map(|()| b"59".as_slice()),
            _ => self.file_control(number, record).map(|()| b"".as_slice()),
        }
    }

    fn batch_header(&mut self, record: &'f Record) -> Result<(), Fault> {
        use batch_header::*;
        let class = CLASS.digits(record)?;
        CLASS.require(matches!(class, 200 | 220 | 225), reason::UNKNOWN_VALUE)?;
        COMPANY_NAME.mandatory_text(record)?;
        COMPANY_DATA.optional_text(record)?;
        COMPANY_ID.mandatory_text(record)?;
        let entry_class = ENTRY_CLASS.of(record);
        ENTRY_CLASS
            .require(entry_class == b"PPD" || entry_class == b"CCD", reason::UNKNOWN_VALUE)?;
        DESCRIPTION.mandatory_text(record)?;
        DESCRIPTIVE_DATE.optional_text(record)?;
        EFFECTIVE_DATE.date(record)?;
        SETTLEMENT.blanks(record)?;
        STATUS.fixed(record, b"1")?;
        ORIGINATOR.digits(record)?;
        let number = BATCH_NUMBER.digits(record)?;
        // The batch before the first has number 0, so this also asks for at least 1.
        BATCH_NUMBER.require(number > self.batch.number, reason::BATCH_NUMBER)?;
        self.batch = Batch { header: record, class, number, trace: 0, sums: Sums::default() };
        self.acceptance.batches += 1;
        Ok(())
    }

    fn entry(&mut self, record: &Record) -> Result<&'static [u8], Fault> {
        use entry::*;
        let code = self.entry_code(record)?;
        let routing = check_routing(record)?;
        check_account(record)?;
        let amount = AMOUNT.digits(record)?;
        AMOUNT.require(code.may_carry(amount), reason::AMOUNT)?;
        IDENTIFICATION.optional_text(record)?;
        NAME.mandatory_text(record)?;
        DISCRETIONARY.optional_text(record)?;
        let allowed_next = match ADDENDUM.of(record) {
            b"0" => b"68".as_slice(),
            b"1" => b"7".as_slice(),
            _ => return Err(ADDENDUM.fault(reason::UNKNOWN_VALUE)),
        };
        ADDENDUM.require(!code.is_remittance() || allowed_next == b"7", reason::REMITTANCE)?;
        self.entry_trace(record)?;
        self.count_entry(code, routing, amount);
        Ok(allowed_next)
    }

    fn entry_code(&self, record: &Record) -> Result<Code, Fault> {
        use entry::CODE;
        let code = Code::known(CODE.digits(record)?);
        let code = code.ok_or(CODE.fault(reason::UNKNOWN_VALUE))?;
        CODE.require(code.fits_class(self.batch.class), reason::SIDE_OF_CLASS)?;
        let in_ccd = || batch_header::ENTRY_CLASS.of(self.batch.header) == b"CCD";
        CODE.require(!code.is_remittance() || in_ccd(), reason::REMITTANCE)?;
        Ok(code)
    }

    fn entry_trace(&mut self, record: &Record) -> Result<(), Fault> {
        use entry::TRACE;
        TRACE.digits(record)?;
        let (originator, sequence) = TRACE.of(record).split_at(8);
        let sequence = value(sequence);
        // Before the first entry of a batch stands 0, so this also asks for at least 1.
        let rises = sequence > self.batch.trace;
        let expected = batch_header::ORIGINATOR.of(self.batch.header);
        TRACE.require(originator == expected && rises, reason::TRACE)?;
        self.batch.trace = sequence;
        Ok(())
    }

    fn count_entry(&mut self, code: Code, routing: u64, amount: u64) {
        let sums = &mut self.batch.sums;
        sums.records += 1;
        sums.routing += routing;
        match code.side {
            Side::Debit => sums.debit += amount,
            Side::Credit => sums.credit += amount,
        }
        self.acceptance.entries += 1;
        self.acceptance.by_code[2 * code.rank] += 1;
        self.acceptance.by_code[2 * code.rank + 1] += amount;
    }

    fn addendum(&mut self, record: &Record) -> Result<(), Fault> {
        use addendum::*;
        KIND.fixed(record, b"05")?;
        TEXT.optional_text(record)?;
        SEQUENCE.fixed(record, b"0001")?;
        let trace = ENTRY_TRACE.digits(record)?;
        ENTRY_TRACE.require(trace == self.batch.trace, reason::TRACE)?;
        self.batch.sums.records += 1;
        self.acceptance.addenda += 1;
        Ok(())
    }

    fn batch_control(&mut self, number: u64, record: &Record) -> Result<(), Fault> {
        use batch_control::*;
        let sums = self.batch.sums;
        self.as_in_header(record, CLASS, batch_header::CLASS)?;
        equal(record, COUNT, sums.records, reason::COUNT)?;
        equal(record, HASH, sums.hash(), reason::HASH)?;
        check_total(record, DEBIT, sums.debit)?;
        check_total(record, CREDIT, sums.credit)?;
        self.as_in_header(record, COMPANY_ID, batch_header::COMPANY_ID)?;
        AUTHENTICATION.blanks(record)?;
        RESERVED.blanks(record)?;
        self.as_in_header(record, ORIGINATOR, batch_header::ORIGINATOR)?;
        self.as_in_header(record, BATCH_NUMBER, batch_header::BATCH_NUMBER)?;
        self.sums.add(sums);
        self.rows.extend([number, self.sums.credit]);
        Ok(())
    }

    fn as_in_header(&self, record: &Record, field: Field, of_header: Field) -> Result<(), Fault> {
        let expected = of_header.of(self.batch.header);
        field.require(field.of(record) == expected, reason::NOT_AS_IN_HEADER)
    }

    fn file_control(&mut self, number: u64, record: &Record) -> Result<(), Fault> {
        use file_control::*;
        let blocks = number.div_ceil(RECORDS_IN_BLOCK as u64);
        equal(record, BATCHES, self.acceptance.batches, reason::COUNT)?;
        equal(record, BLOCKS, blocks, reason::COUNT)?;
        equal(record, COUNT, self.sums.records, reason::COUNT)?;
        equal(record, HASH, self.sums.hash(), reason::HASH)?;
        check_total(record, DEBIT, self.sums.debit)?;
        check_total(record, CREDIT, self.sums.credit)?;
        RESERVED.blanks(record)?;
        self.acceptance.debit = self.sums.debit;
        self.acceptance.credit = self.sums.credit;
        Ok(())
    }
}

fn check_file_header(record: &Record) -> Result<(), Fault> {
    use file_header::*;
    PRIORITY.fixed(record, b"01")?;
    check_destination(record)?;
    check_origin(record)?;
    DATE.date(record)?;
    check_time(record)?;
    let modifier = MODIFIER.of(record)[0];
    MODIFIER.require(
        modifier.is_ascii_uppercase() || modifier.is_ascii_digit(),
        reason::UNKNOWN_VALUE,
    )?;
    RECORD_SIZE.fixed(record, b"094")?;
    BLOCKING.fixed(record, b"10")?;
    FORMAT.fixed(record, b"1")?;
    DESTINATION_NAME.optional_text(record)?;
    ORIGIN_NAME.optional_text(record)?;
    REFERENCE.optional_text(record)
}

fn check_destination(record: &Record) -> Result<(), Fault> {
    use file_header::DESTINATION;
    let (blank, routing) = DESTINATION.of(record).split_at(1);
    DESTINATION.require(blank == b" ", reason::FIXED_TEXT)?;
    DESTINATION.require(are_digits(routing), reason::NOT_DIGITS)?;
    let (routing, stated) = routing.split_at(8);
    DESTINATION.require(value(stated) == check_digit(routing), reason::CHECK_DIGIT)
}

/// The nine digits are tried before the column that stands left of them: theirs is the lower
/// number.
fn check_origin(record: &Record) -> Result<(), Fault> {
    use file_header::ORIGIN;
    let (first, digits) = ORIGIN.of(record).split_at(1);
    ORIGIN.require(are_digits(digits), reason::NOT_DIGITS)?;
    ORIGIN.require(first == b" " || are_digits(first), reason::UNKNOWN_VALUE)
}

fn check_time(record: &Record) -> Result<(), Fault> {
    use file_header::TIME;
    if is_blank(TIME.of(record)) {
        return Ok(());
    }
    let time = TIME.digits(record)?;
    let (hour, minute) = (time / 100, time % 100);
    TIME.require(hour < 24 && minute < 60, reason::NO_SUCH_DAY_OR_TIME)
}

fn check_routing(record: &Record) -> Result<u64, Fault> {
    use entry::{CHECK_DIGIT, ROUTING};
    let routing = ROUTING.digits(record)?;
    let digits = ROUTING.of(record);
    ROUTING.require(digits[0] <= b'3', reason::ROUTING_FIRST_DIGIT)?;
    let stated = CHECK_DIGIT.digits(record)?;
    CHECK_DIGIT.require(stated == check_digit(digits), reason::CHECK_DIGIT)?;
    Ok(routing)
}

fn check_account(record: &Record) -> Result<(), Fault> {
    use entry::ACCOUNT;
    let account = ACCOUNT.of(record);
    let sign = |byte: u8| byte.is_ascii_digit() | byte.is_ascii_uppercase();
    let known = |byte: u8| sign(byte) | (byte == b'-') | (byte == b' ');
    ACCOUNT.require(all(account, known), reason::CHARACTER)?;
    ACCOUNT.require(!is_blank(account), reason::ALL_BLANK)?;
    // A blank somewhere before a non-blank means a blank right before one.
    let pairs = account.iter().zip(&account[1..]);
    let gap = pairs.fold(false, |gap, (&left, &right)| gap | (left == b' ') & (right != b' '));
    ACCOUNT.require(!gap, reason::MISPLACED_BLANK)
}

/// A control field that must spell a number counted on the way.
fn equal(record: &Record, field: Field, counted: u64, otherwise: u8) -> Result<(), Fault> {
    let stated = field.digits(record)?;
    field.require(stated == counted, otherwise)
}

/// A total has twelve digits, so the true sum must fit them before the two can be equal.
fn check_total(record: &Record, field: Field, sum: u64) -> Result<(), Fault> {
    let stated = field.digits(record)?;
    field.require(sum <= LARGEST_TOTAL, reason::SUM_TOO_LARGE)?;
    field.require(stated == sum, reason::TOTAL)
}
