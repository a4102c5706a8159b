//! Zero-dollar remittances: entries and files of them, and damage to what they ask for.

use crate::columns::{place, record_range, RECORD};
use crate::copies::{with_field, without_record};
use crate::plan::{is_payment, is_remittance, Entry, Plan};
use crate::random::Random;
use crate::shapes::sample;

pub const REMITTANCES: [u32; 4] = [24, 29, 34, 39];

/// The sample as a CCD batch under a service class, with an entry of each code; all of them have an
/// addendum, and payments an amount.
pub fn in_ccd(class: u32, codes: &[u32]) -> Plan {
    let mut plan = sample();
    let batch = &mut plan.batches[0];
    let model = batch.entries.remove(1);
    batch.class = class;
    batch.entry_class = "CCD".into();
    let numbered = codes.iter().zip(1..);
    batch.entries =
        numbered.map(|(&code, trace)| Entry { trace, ..of_code(code, model.clone()) }).collect();
    plan
}

/// The entry with this code, and no amount if the code carries none.
pub fn of_code(code: u32, entry: Entry) -> Entry {
    let amount = if is_payment(code) { entry.amount } else { 0 };
    Entry { code, amount, ..entry }
}

/// The plan with a prenote of the same side in place of every remittance: what a client's list,
/// which has no addenda, can say.
pub fn with_prenotes_for_remittances(mut plan: Plan) -> Plan {
    for entry in plan.batches.iter_mut().flat_map(|batch| &mut batch.entries) {
        // The prenote's code is the one before: 23 for 24, 28 for 29, 33 for 34, 38 for 39.
        entry.code -= u32::from(is_remittance(entry.code));
    }
    plan
}

/// A copy in which the batch of the entry in this record has another entry class.
pub fn with_entry_class(file: &[u8], record: usize, class: &str) -> Vec<u8> {
    let header = (1..=record).rev().find(|&record| file[record_range(record).start] == b'5');
    header.map_or_else(|| file.to_vec(), |header| with_field(file, header, 6, class))
}

/// A copy in which the entry in this record says that it has no addendum; the one behind it goes.
pub fn without_addendum(file: &[u8], record: usize) -> Vec<u8> {
    let changed = with_field(file, record, 10, "0");
    match file.get(record_range(record + 1)) {
        Some([b'7', ..]) => without_record(&changed, record + 1),
        _ => changed,
    }
}

/// Puts an entry to one of the edges of the rules for remittances: its code becomes one of theirs,
/// with the amount 0, 1 or what it was, with an addendum or without; its addendum goes, or the flag
/// alone changes; its batch becomes one of the other entry class.
pub fn random_remittance_damage(random: &mut Random, file: &[u8]) -> Vec<u8> {
    let Some(record) = random_entry(random, file) else {
        return file.to_vec();
    };
    let with = |field, text: &str| with_field(file, record, field, text);
    let code = if random.one_in(6) { *random.pick(&REMITTANCES) } else { of_side(file, record) };
    let remittance = with_field(&with(6, "0000000000"), record, 2, code.to_string());
    match random.below(9) {
        0 => with(2, &code.to_string()),
        1 => with_field(&remittance, record, 6, "0000000001"),
        2 => remittance,
        3 => without_addendum(&remittance, record),
        4 => without_addendum(file, record),
        5 => with(10, *random.pick(&["0", "1", "2", " "])),
        6 => with(6, "0000000001"),
        7 => with_entry_class(file, record, "PPD"),
        _ => with_entry_class(file, record, "CCD"),
    }
}

/// The record of an entry, mostly of a remittance where there are some.
fn random_entry(random: &mut Random, file: &[u8]) -> Option<usize> {
    let records = file.chunks_exact(RECORD).zip(1..);
    let entries: Vec<(&[u8], usize)> = records.filter(|(record, _)| record[0] == b'6').collect();
    let remittances: Vec<(&[u8], usize)> =
        entries.iter().copied().filter(|(record, _)| matches!(record[2], b'4' | b'9')).collect();
    let among = if random.one_in(4) || remittances.is_empty() { entries } else { remittances };
    (!among.is_empty()).then(|| random.pick(&among).1)
}

/// The code of a remittance for the account and on the side that the entry's code is for.
fn of_side(file: &[u8], record: usize) -> u32 {
    let code = &file[place(file, record, 2)];
    match (code[0], code[1]) {
        (b'3', b'5'..) => 39,
        (b'3', _) => 34,
        (_, b'5'..) => 29,
        _ => 24,
    }
}
