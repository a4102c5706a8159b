//! Damage: bytes, fields and records put out of order, mostly just across the edge of a rule.

use crate::columns::{field_count, field_range, number, place, record_range, RECORD};
use crate::copies::{
    with_column, with_field, with_record_doubled, with_record_inserted, with_records_swapped,
    with_trace, without_record,
};
use crate::random::Random;
use crate::remittances::random_remittance_damage;

/// Bytes that lie on both sides of the borders between digits, letters, text and the rest.
pub const BORDER_BYTES: [u8; 25] = [
    0x00, b'\n', 0x1F, b' ', b'!', b'-', b'.', b'/', b'0', b'1', b'3', b'4', b'9', b':', b'@',
    b'A', b'Z', b'[', b'`', b'a', b'z', b'{', b'~', 0x7F, 0xFF,
];

const DATES: [&str; 16] = [
    "000101", "000229", "000230", "000100", "000001", "001301", "010229", "040229", "991231",
    "991232", "990431", "990430", "990631", "990931", "991131", "990131",
];
const TIMES: [&str; 10] =
    ["    ", "0000", "2359", "2400", "2360", "0060", "9999", "12  ", "  00", " 000"];
const CLASSES: [&str; 8] = ["200", "220", "225", "199", "201", "221", "226", "280"];
const ENTRY_CLASSES: [&str; 6] = ["PPD", "CCD", "CTX", "PPC", "ppd", "WEB"];
const ACCOUNTS: [&str; 15] = [
    "12-3             ",
    "12 3             ",
    "-                ",
    "                -",
    "-----------------",
    "1               1",
    "12345678901234567",
    "AZ-09            ",
    "A                ",
    "                Z",
    "ABCDEFGHIJKLMNOPQ",
    "A               Z",
    " AZ              ",
    "az               ",
    "A a              ",
];
const AMOUNTS: [&str; 4] = ["0000000000", "0000000001", "9999999999", "1000000000"];

/// Values to try in a field, near what stands there: some pass, some just fail.
pub fn field_values(record_type: u8, field: u8, now: &[u8]) -> Vec<Vec<u8>> {
    let mut values = whole_values(now);
    values.extend(numbers_near(now));
    for place in 0..now.len() {
        for byte in BORDER_BYTES {
            let mut value = now.to_vec();
            value[place] = byte;
            values.push(value);
        }
    }
    let known = known_values(record_type, field);
    values.extend(known.iter().map(|text| text.as_bytes().to_vec()));
    if (record_type, field) == (b'6', 2) {
        values.extend((0..100).map(|code| format!("{code:02}").into_bytes()));
    }
    values
}

fn known_values(record_type: u8, field: u8) -> &'static [&'static str] {
    match (record_type, field) {
        (b'1', 5) | (b'5', 9) => &DATES,
        (b'1', 6) => &TIMES,
        (b'5' | b'8', 2) => &CLASSES,
        (b'5', 6) => &ENTRY_CLASSES,
        (b'6', 5) => &ACCOUNTS,
        (b'6', 6) => &AMOUNTS,
        _ => &[],
    }
}

/// The field as a whole: of one byte throughout, or shifted by a column.
fn whole_values(now: &[u8]) -> Vec<Vec<u8>> {
    let mut values: Vec<Vec<u8>> =
        [b' ', b'0', b'9', b'A', b'a', 0x7F].iter().map(|&byte| vec![byte; now.len()]).collect();
    let mut shifted = now.to_vec();
    shifted.rotate_right(1);
    shifted[0] = b' ';
    values.push(shifted);
    let mut shifted = now.to_vec();
    shifted.rotate_left(1);
    values.push(shifted);
    values
}

/// Where the field is a number: the numbers one, ten, a hundred .. more and less.
fn numbers_near(now: &[u8]) -> Vec<Vec<u8>> {
    let Some(number) = number(now) else {
        return Vec::new();
    };
    let width = now.len();
    let mut values = Vec::new();
    for exponent in 0..width as u32 {
        let step = 10_u64.pow(exponent);
        for near in [number.wrapping_add(step), number.wrapping_sub(step)] {
            let spelled = format!("{near:0width$}");
            values.push(spelled.as_bytes()[spelled.len() - width..].to_vec());
        }
    }
    values
}

/// Traces around that of the entry before this record, whichever batch it is in, and those at the
/// ends.
pub fn traces_near(file: &[u8], record: usize) -> Vec<u32> {
    let mut back = file[..record_range(record).start].rchunks_exact(RECORD);
    let entry = back.find(|record| record[0] == b'6');
    let trace = entry.and_then(|entry| number(&entry[field_range(b'6', 11)][8..]));
    let before = trace.unwrap_or(0) as u32;
    let mut near = vec![0, 1, before.saturating_sub(1), before, before + 1, before + 2, 9_999_999];
    near.retain(|trace| *trace <= 9_999_999);
    near
}

/// Does one random thing to a file that has at least one record.
pub fn random_damage(random: &mut Random, file: &[u8]) -> Vec<u8> {
    let records = file.len() / RECORD;
    if records == 0 {
        return file.to_vec();
    }
    let record = 1 + random.below(records);
    let other = 1 + random.below(records);
    match random.below(12) {
        0 => with_column(file, record, 1 + random.below(RECORD), random.byte()),
        1 => without_record(file, record),
        2 => with_record_doubled(file, record),
        3 => with_records_swapped(file, record, other),
        4 => {
            let copy = file[record_range(other)].to_vec();
            with_record_inserted(file, record, &copy)
        }
        5 => file[..random.below(file.len() + 1)].to_vec(),
        6 => file[..record * RECORD].to_vec(),
        7 => extended(random, file),
        8 if file[record_range(record).start] == b'6' => {
            with_trace(file, record, *random.pick(&traces_near(file, record)))
        }
        9 => random_remittance_damage(random, file),
        _ => with_random_value(random, file, record),
    }
}

/// A copy in which one field of the record has another value near its own.
pub fn with_random_value(random: &mut Random, file: &[u8], record: usize) -> Vec<u8> {
    let start = record_range(record).start;
    let fields = field_count(file[start]);
    if fields == 0 {
        return with_column(file, record, 1, *random.pick(b"156789"));
    }
    let field = 1 + random.below(usize::from(fields)) as u8;
    let now = &file[place(file, record, field)];
    let values = field_values(file[start], field, now);
    with_field(file, record, field, random.pick(&values))
}

/// A copy with records behind its end.
fn extended(random: &mut Random, file: &[u8]) -> Vec<u8> {
    let mut changed = file.to_vec();
    for _ in 0..1 + random.below(11) {
        match random.below(3) {
            0 => changed.extend([b' '; RECORD]),
            1 => changed.extend_from_within(..RECORD),
            _ => changed.extend([b'9'; RECORD]),
        }
    }
    changed
}
