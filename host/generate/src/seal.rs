//! Controls and fillers made to follow from the entries again.

use crate::columns::{field_range, number, RECORD};
use crate::plan::is_credit;

/// A copy whose controls and fillers follow from its entries again, so that damage to an entry is
/// not hidden behind a control that no longer fits. What is no number counts as 0.
pub fn resealed(file: &[u8]) -> Vec<u8> {
    let mut changed = Vec::with_capacity(file.len());
    let mut batch = Seal::default();
    let mut whole = Seal::default();
    let mut header = [b' '; RECORD].as_slice();
    for record in file.chunks_exact(RECORD) {
        match record[0] {
            b'5' => {
                header = record;
                batch = Seal::default();
                whole.batches += 1;
                changed.extend_from_slice(record);
            }
            b'6' | b'7' => {
                batch.add(record);
                whole.add(record);
                changed.extend_from_slice(record);
            }
            b'8' => changed.extend(batch.control(record, header)),
            b'9' => {
                let number = changed.len() / RECORD + 1;
                changed.extend(whole.file_control(record, number));
                changed.resize(number.next_multiple_of(10) * RECORD, b'9');
                break;
            }
            _ => changed.extend_from_slice(record),
        }
    }
    changed
}

/// What controls have to say.
#[derive(Default)]
struct Seal {
    batches: u64,
    records: u64,
    routing: u64,
    debit: u64,
    credit: u64,
}

impl Seal {
    fn add(&mut self, record: &[u8]) {
        self.records += 1;
        if record[0] != b'6' {
            return;
        }
        let of = |field| number(&record[field_range(b'6', field)]).unwrap_or(0);
        self.routing += of(3);
        if is_credit(of(2) as u32) {
            self.credit += of(6);
        } else {
            self.debit += of(6);
        }
    }

    fn control(&self, record: &[u8], header: &[u8]) -> Vec<u8> {
        let mut changed = record.to_vec();
        for (field, of_header) in [(2, 2), (7, 5), (10, 12), (11, 13)] {
            let expected = &header[field_range(b'5', of_header)];
            changed[field_range(b'8', field)].copy_from_slice(expected);
        }
        self.spell(&mut changed, &[(3, self.records)], 4);
        changed
    }

    fn file_control(&self, record: &[u8], number: usize) -> Vec<u8> {
        let blocks = number.div_ceil(10) as u64;
        let counts = [(2, self.batches), (3, blocks), (4, self.records)];
        let mut changed = record.to_vec();
        self.spell(&mut changed, &counts, 5);
        changed
    }

    /// Writes the counts, and the hash and the two totals from the given field on.
    fn spell(&self, control: &mut [u8], counts: &[(u8, u64)], hash_field: u8) {
        let totals = [
            (hash_field, self.routing),
            (hash_field + 1, self.debit),
            (hash_field + 2, self.credit),
        ];
        for &(field, value) in counts.iter().chain(&totals) {
            let columns = field_range(control[0], field);
            let width = columns.len();
            let spelled = format!("{value:0width$}");
            let cut = &spelled.as_bytes()[spelled.len() - width..];
            control[columns].copy_from_slice(cut);
        }
    }
}
