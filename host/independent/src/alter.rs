//! Questions about one entry of a file: its addendum, and a new amount for it.

use crate::check::{check, checked, LARGEST_TOTAL};
use crate::code::{Code, Side};
use crate::field::{value, Field};
use crate::layout::*;
use crate::outcome::{reason, Refusal};
use crate::records::{Records, Way};

/// Where an entry's addendum text lies in the file, as offset and length; (0, 0) if it has none.
pub fn addendum(way: Way, file: &[u8], entry: u64) -> Result<(usize, usize), Refusal> {
    let held = check(way, file)?;
    let records = Records::of(way, file)?;
    let index = find_entry(records, held.entries, entry)?;
    if entry::ADDENDUM.of(records.get(index)) != b"1" {
        return Ok((0, 0));
    }
    let text = addendum::TEXT;
    let start = way.columns(index + 1).start + text.offset();
    Ok((start, text.of(records.get(index + 1)).len()))
}

/// Gives an entry a new amount and brings the totals along, and the file's list, which has to stand
/// in front of the lent numbers; tells the new amount less the old.
pub fn alter(
    way: Way,
    file: &mut [u8],
    lent: &mut [u64],
    entry: u64,
    amount: u64,
) -> Result<i64, Refusal> {
    let (held, rows) = checked(way, file)?;
    if !lent.starts_with(&rows) {
        return Err(Refusal::without_place(reason::NOT_ITS_LIST));
    }
    let entry_index = find_entry(Records::of(way, file)?, held.entries, entry)?;
    let Altered { code, batch_index, difference } = alter_amount(way, file, entry_index, amount)?;
    if code.side == Side::Credit {
        // The credits so far are others from the entry's batch on.
        let behind = |row: &&mut [u64]| row[0] > batch_index as u64;
        for row in lent[..rows.len()].chunks_exact_mut(2).filter(behind) {
            row[1] = row[1].wrapping_add_signed(difference);
        }
    }
    Ok(difference)
}

/// What was altered in a file.
struct Altered {
    code: Code,
    batch_index: usize,
    difference: i64,
}

/// Alters the entry in this record of a checked file, and the totals of its side.
fn alter_amount(
    way: Way,
    file: &mut [u8],
    entry_index: usize,
    amount: u64,
) -> Result<Altered, Refusal> {
    let records = Records::of(way, file)?;
    let batch_index = next_of_type(records, entry_index, b'8');
    let file_index = next_of_type(records, batch_index, b'9');

    let record = records.get(entry_index);
    let code =
        Code::known(value(entry::CODE.of(record))).expect("a checked entry has a known code");
    if !code.may_carry(amount) {
        return Err(refusal(reason::AMOUNT, entry_index, entry::AMOUNT));
    }
    let old_amount = value(entry::AMOUNT.of(record));
    let (batch_field, file_field) = match code.side {
        Side::Debit => (batch_control::DEBIT, file_control::DEBIT),
        Side::Credit => (batch_control::CREDIT, file_control::CREDIT),
    };
    let new_total = |index: usize, field: Field| {
        let total = value(field.of(records.get(index))) - old_amount + amount;
        if total > LARGEST_TOTAL {
            return Err(refusal(reason::SUM_TOO_LARGE, index, field));
        }
        Ok(total)
    };
    let batch_total = new_total(batch_index, batch_field)?;
    let file_total = new_total(file_index, file_field)?;

    for (index, field, number) in [
        (entry_index, entry::AMOUNT, amount),
        (batch_index, batch_field, batch_total),
        (file_index, file_field, file_total),
    ] {
        let columns = &mut file[way.columns(index)];
        field.put_number(columns.try_into().expect("a record has its columns"), number);
    }
    Ok(Altered { code, batch_index, difference: amount as i64 - old_amount as i64 })
}

fn refusal(number: u8, index: usize, field: Field) -> Refusal {
    field.fault(number).at(index as u64 + 1)
}

/// The index of the record that holds an entry, in a checked file of so many entries.
fn find_entry(records: Records, entries: u64, entry: u64) -> Result<usize, Refusal> {
    if !(1..=entries).contains(&entry) {
        return Err(Refusal::without_place(reason::NO_SUCH_ENTRY));
    }
    let entries_before = entry as usize - 1;
    let index = records
        .iter()
        .enumerate()
        .filter(|(_, record)| record[0] == b'6')
        .nth(entries_before)
        .map(|(index, _)| index);
    Ok(index.expect("the check counted this entry"))
}

fn next_of_type(records: Records, from: usize, record_type: u8) -> usize {
    let offset = records.iter().skip(from).position(|record| record[0] == record_type);
    from + offset.expect("a checked file has its controls")
}
