//! Where the money runs out: the list that the check of a file gives, and the question that is put
//! to a list.

use crate::check::checked;
use crate::outcome::{reason, Acceptance, Refusal};
use crate::records::Way;

/// Checks a file, and puts its list in front of the lent numbers: for each batch the record number
/// of its control, and the credits so far.
pub fn check_into(way: Way, file: &[u8], lent: &mut [u64]) -> Result<Acceptance, Refusal> {
    let (held, rows) = checked(way, file)?;
    let front = lent.get_mut(..rows.len()).ok_or(Refusal::without_place(reason::ROOM))?;
    front.copy_from_slice(&rows);
    Ok(held)
}

/// The list of a file, in memory of its own.
pub fn rows_of(way: Way, file: &[u8]) -> Result<Vec<u64>, Refusal> {
    checked(way, file).map(|(_, rows)| rows)
}

/// Which row of a list is the first over a limit.
#[derive(Clone, Copy, Debug, PartialEq, Eq)]
pub struct RunsOut {
    /// Its record number and its credits; nothing if no row is.
    pub found: Option<(u64, u64)>,
    /// How many rows come up to it and with it, or all of them.
    pub rows: usize,
}

/// The first row whose credits exceed the limit; a lone number at the end is no row.
pub fn runs_out(list: &[u64], limit: u64) -> RunsOut {
    let rows = list.chunks_exact(2);
    let all = rows.len();
    let over = rows.zip(1..).find(|(row, _)| row[1] > limit);
    match over {
        Some((row, number)) => RunsOut { found: Some((row[0], row[1])), rows: number },
        None => RunsOut { found: None, rows: all },
    }
}
