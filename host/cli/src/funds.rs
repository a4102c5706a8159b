//! Where the money runs out, in words and as a line.

use crate::money::spelled;
use crate::options::Amount;
use ach::fields::record_type;
use ach::{Row, RunsOut, Way};

/// How many batches come up to the one found and with it, its record and its credits in cents; for
/// none, all batches and zeros.
pub fn line(answer: RunsOut) -> String {
    let row = answer.found.unwrap_or(Row { record: 0, credits: 0 });
    format!("OK {} {} {}\n", answer.rows, row.record, row.credits)
}

/// The batch at whose end the credits are over the limit, by the number in its control.
pub fn words_of_batch(way: Way, file: &[u8], row: Row, limit: &Amount) -> String {
    let start = (row.record as usize - 1) * way.record_length();
    let control = record_type(b'8').and_then(|known| known.field(11));
    let number = control.map_or(&[][..], |field| field.of(&file[start..]));
    let (number, credits) = (String::from_utf8_lossy(number), spelled(row.credits));
    let record = row.record;
    format!(
        "{} runs out with batch {number}, record {record}: credits so far {credits}",
        limit.text
    )
}

pub fn words_of_none(rows: &[u64], limit: &Amount) -> String {
    let credits = spelled(rows.last().copied().unwrap_or_default());
    format!("none: credits of {credits} do not exceed {}", limit.text)
}

/// How many batches come before the one with which the limit is passed, of how many.
pub fn covered(answer: RunsOut, rows: &[u64]) -> String {
    let covered = answer.rows - u64::from(answer.found.is_some());
    format!("{covered} of {}", rows.len() / 2)
}
