//! A file as the values it is made of, and the rendering of those values.

use crate::columns::RECORD;
use crate::lines::lined;
use std::collections::BTreeSet;

#[derive(Clone, Debug)]
pub struct Plan {
    pub header: Header,
    pub batches: Vec<Batch>,
}

#[derive(Clone, Debug)]
pub struct Header {
    /// The first eight digits; the check digit is put behind them.
    pub destination: u32,
    pub origin: String,
    pub date: String,
    pub time: String,
    pub modifier: char,
    pub destination_name: String,
    pub origin_name: String,
    pub reference: String,
}

#[derive(Clone, Debug)]
pub struct Batch {
    pub class: u32,
    pub company_name: String,
    pub company_data: String,
    pub company_id: String,
    pub entry_class: String,
    pub description: String,
    pub descriptive_date: String,
    pub effective_date: String,
    pub originator: u32,
    pub number: u32,
    pub entries: Vec<Entry>,
}

#[derive(Clone, Debug)]
pub struct Entry {
    pub code: u32,
    /// The first eight digits; the check digit is put behind them.
    pub routing: u32,
    pub account: String,
    pub amount: u64,
    pub identification: String,
    pub name: String,
    pub discretionary: String,
    pub trace: u32,
    pub addendum: Option<String>,
}

impl Plan {
    pub fn file(&self) -> Vec<u8> {
        let mut builder = Builder::new(&self.header);
        for batch in &self.batches {
            builder.open(batch);
            for entry in &batch.entries {
                builder.entry(batch, entry);
            }
            builder.close(batch);
        }
        builder.finish()
    }

    /// The file with CR LF behind every record.
    pub fn lined_file(&self) -> Vec<u8> {
        lined(&self.file())
    }

    pub fn table(&self) -> Vec<u8> {
        let entries = || self.batches.iter().flat_map(|batch| &batch.entries);
        let addenda = || entries().filter_map(|entry| entry.addendum.as_ref());
        let mut table = format!("{:06}{}", 1, self.header.row());
        table += &format!("{:06}", self.batches.len());
        table.extend(self.batches.iter().map(Batch::row));
        table += &format!("{:06}", entries().count());
        for batch in &self.batches {
            table.extend(batch.entries.iter().map(|entry| entry.row(batch)));
        }
        table += &format!("{:06}", addenda().count());
        table.extend(addenda().map(|text| format!("{text:<80}")));
        table.into_bytes()
    }

    /// The plan without these entries, which are counted from 1 through the file, and without the
    /// batches that are left empty. All else stays, traces and batch numbers too.
    pub fn without(&self, entries: &[u64]) -> Plan {
        let gone: BTreeSet<&u64> = entries.iter().collect();
        let mut rest = self.clone();
        let mut number = 0;
        for batch in &mut rest.batches {
            batch.entries.retain(|_| {
                number += 1;
                !gone.contains(&number)
            });
        }
        rest.batches.retain(|batch| !batch.entries.is_empty());
        rest
    }

    /// The list that goes with the file: for each batch its control's record number, and the credits
    /// of all entries up to there.
    pub fn rows(&self) -> Vec<u64> {
        // Record 1 is the file's header.
        let (mut record, mut credits) = (1, 0);
        let row = |batch: &Batch| {
            let mut totals = Totals::default();
            batch.entries.iter().for_each(|entry| totals.add(entry));
            record += 2 + totals.records;
            credits += totals.credit;
            [record, credits]
        };
        self.batches.iter().flat_map(row).collect()
    }

    pub fn entry_count(&self) -> usize {
        self.batches.iter().map(|batch| batch.entries.len()).sum()
    }
}

impl Header {
    /// Columns 4-34 of record 1.
    fn left(&self) -> String {
        format!(
            " {:08}{}{}{}{:<4}{}",
            self.destination,
            routing_check_digit(self.destination),
            self.origin,
            self.date,
            self.time,
            self.modifier
        )
    }

    /// Columns 41-94 of record 1.
    fn right(&self) -> String {
        format!("{:<23}{:<23}{:<8}", self.destination_name, self.origin_name, self.reference)
    }

    fn row(&self) -> String {
        self.left() + &self.right()
    }

    fn record(&self) -> String {
        format!("101{}094101{}", self.left(), self.right())
    }
}

impl Batch {
    /// Columns 2-75 of record 5.
    fn left(&self) -> String {
        format!(
            "{:03}{:<16}{:<20}{:<10}{}{:<10}{:<6}{}",
            self.class,
            self.company_name,
            self.company_data,
            self.company_id,
            self.entry_class,
            self.description,
            self.descriptive_date,
            self.effective_date
        )
    }

    /// Columns 80-94 of record 5, and of record 8.
    fn right(&self) -> String {
        format!("{:08}{:07}", self.originator, self.number)
    }

    fn row(&self) -> String {
        format!("{}{}{:06}", self.left(), self.right(), self.entries.len())
    }

    fn header(&self) -> String {
        format!("5{}   1{}", self.left(), self.right())
    }

    fn control(&self, totals: &Totals) -> String {
        format!(
            "8{:03}{:06}{:010}{:012}{:012}{:<10}{:25}{}",
            self.class,
            totals.records,
            totals.hash(),
            totals.debit % TOTAL_MODULUS,
            totals.credit % TOTAL_MODULUS,
            self.company_id,
            "",
            self.right()
        )
    }
}

impl Entry {
    /// Columns 2-94 of record 6.
    fn row(&self, batch: &Batch) -> String {
        format!(
            "{:02}{:08}{}{:<17}{:010}{:<15}{:<22}{:<2}{}{:08}{:07}",
            self.code,
            self.routing,
            routing_check_digit(self.routing),
            self.account,
            self.amount,
            self.identification,
            self.name,
            self.discretionary,
            u8::from(self.addendum.is_some()),
            batch.originator,
            self.trace
        )
    }
}

/// What entries come to, for the control of a batch or of the file.
#[derive(Clone, Copy, Default)]
struct Totals {
    records: u64,
    routing: u64,
    debit: u64,
    credit: u64,
}

const HASH_MODULUS: u64 = 10_000_000_000;
const TOTAL_MODULUS: u64 = 1_000_000_000_000;

impl Totals {
    fn add(&mut self, entry: &Entry) {
        self.records += 1 + u64::from(entry.addendum.is_some());
        self.routing += u64::from(entry.routing);
        if is_credit(entry.code) {
            self.credit += entry.amount;
        } else {
            self.debit += entry.amount;
        }
    }

    fn hash(&self) -> u64 {
        self.routing % HASH_MODULUS
    }
}

/// Puts a file together record by record; big files are built this way without a plan in memory.
pub struct Builder {
    file: Vec<u8>,
    batches: u64,
    batch: Totals,
    whole: Totals,
}

impl Builder {
    pub fn new(header: &Header) -> Self {
        let mut builder = Builder {
            file: Vec::new(),
            batches: 0,
            batch: Totals::default(),
            whole: Totals::default(),
        };
        builder.push(&header.record());
        builder
    }

    pub fn records(&self) -> usize {
        self.file.len() / RECORD
    }

    pub fn open(&mut self, batch: &Batch) {
        self.batches += 1;
        self.batch = Totals::default();
        self.push(&batch.header());
    }

    pub fn entry(&mut self, batch: &Batch, entry: &Entry) {
        self.push(&format!("6{}", entry.row(batch)));
        if let Some(text) = &entry.addendum {
            self.push(&format!("705{text:<80}0001{:07}", entry.trace));
        }
        self.batch.add(entry);
        self.whole.add(entry);
    }

    pub fn close(&mut self, batch: &Batch) {
        let control = batch.control(&self.batch);
        self.push(&control);
    }

    pub fn finish(mut self) -> Vec<u8> {
        let blocks = (self.records() + 1).div_ceil(10);
        let control = format!(
            "9{:06}{:06}{:08}{:010}{:012}{:012}{:39}",
            self.batches,
            blocks,
            self.whole.records,
            self.whole.hash(),
            self.whole.debit % TOTAL_MODULUS,
            self.whole.credit % TOTAL_MODULUS,
            ""
        );
        self.push(&control);
        self.file.resize(blocks * 10 * RECORD, b'9');
        self.file
    }

    fn push(&mut self, record: &str) {
        assert_eq!(record.len(), RECORD, "a value too long for its columns: {record}");
        self.file.extend_from_slice(record.as_bytes());
    }
}

pub fn is_credit(code: u32) -> bool {
    matches!(code, 22..=24 | 32..=34)
}

/// Whether entries of the code carry money: neither prenotes nor remittances do.
pub fn is_payment(code: u32) -> bool {
    matches!(code, 22 | 27 | 32 | 37)
}

/// Whether the code is a zero-dollar remittance's.
pub fn is_remittance(code: u32) -> bool {
    matches!(code, 24 | 29 | 34 | 39)
}

pub fn routing_check_digit(routing: u32) -> u32 {
    let mut rest = routing;
    let mut sum = 0;
    // From the last digit to the first; the weights 3, 7, 1, 3, 7, 1, 3, 7 in that order.
    for weight in [7, 3, 1, 7, 3, 1, 7, 3] {
        sum += weight * (rest % 10);
        rest /= 10;
    }
    (10 - sum % 10) % 10
}
