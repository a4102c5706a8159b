//! Where the money runs out: a file's rows, and the question that is put to rows.

use crate::boundary;
use crate::check::check_into;
use crate::refusal::Refusal;
use crate::way::Way;

/// The rows of a file, in memory of their own.
///
/// ```
/// use ach::Way;
///
/// let file = include_bytes!("../../../samples/whole-lined.ach");
/// assert_eq!(ach::rows_of(Way::Lined, file)?, [6, 12_550]);
/// assert_eq!(ach::rows_of(Way::Plain, file).unwrap_err().number, 1);
/// # Ok::<(), ach::Refusal>(())
/// ```
pub fn rows_of(way: Way, file: &[u8]) -> Result<Vec<u64>, Refusal> {
    let mut rows = vec![0; way.room_for_rows(file.len())];
    let held = check_into(way, file, &mut rows)?;
    rows.truncate(2 * held.batches as usize);
    Ok(rows)
}

/// A row: how far the credits have come with a batch.
#[derive(Clone, Copy, Debug, PartialEq, Eq)]
pub struct Row {
    /// The record number of the batch's control.
    pub record: u64,
    /// The credits of all entries up to there, in cents.
    pub credits: u64,
}

/// Where a limit is passed.
#[derive(Clone, Copy, Debug, PartialEq, Eq)]
pub struct RunsOut {
    /// The first row over the limit; nothing if none is.
    pub found: Option<Row>,
    /// How many rows come up to it and with it, or all of them.
    pub rows: u64,
}

/// The first row whose credits are more than the limit, in cents. Of a file's own rows it is the
/// first batch at whose end the credits exceed the limit. Any numbers will do; a lone one at the end
/// is no row.
///
/// ```
/// use ach::{Row, RunsOut, Way};
///
/// let file = include_bytes!("../../../samples/gaps.ach");
/// let rows = ach::rows_of(Way::Plain, file)?;
/// let found = Some(Row { record: 11, credits: 900_635 });
/// assert_eq!(ach::runs_out(&rows, 800_000), RunsOut { found, rows: 2 });
/// assert_eq!(ach::runs_out(&rows, 900_635), RunsOut { found: None, rows: 2 });
/// # Ok::<(), ach::Refusal>(())
/// ```
pub fn runs_out(rows: &[u64], limit: u64) -> RunsOut {
    let mut answer = [0; 3];
    // SAFETY: the pointers come from a slice of the length told, and an array of three.
    let over =
        unsafe { boundary::ach_runs_out(rows.as_ptr(), rows.len(), limit, answer.as_mut_ptr()) };
    let [rows, record, credits] = answer;
    RunsOut { found: (over != 0).then_some(Row { record, credits }), rows }
}
