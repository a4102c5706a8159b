//! The check: what a file holds, and the line that says so.

use crate::boundary;
use crate::refusal::{granted, Refusal};
use crate::way::Way;

/// How many numbers an acceptance has at the boundary.
pub const ACCEPTANCE_LENGTH: usize = 29;

/// The transaction codes that are known, in the order of [`Acceptance::by_code`].
pub const CODES: [u8; 12] = [22, 23, 24, 27, 28, 29, 32, 33, 34, 37, 38, 39];

/// What an accepted file holds.
#[derive(Clone, Copy, Debug, PartialEq, Eq)]
pub struct Acceptance {
    /// How many batches.
    pub batches: u64,
    /// How many entries, in all batches.
    pub entries: u64,
    /// How many of the entries have an addendum.
    pub addenda: u64,
    /// The cents of all debit entries.
    pub debit: u64,
    /// The cents of all credit entries.
    pub credit: u64,
    /// How many entries and how many cents, for each of [`CODES`] in turn.
    ///
    /// ```
    /// let file = include_bytes!("../../../samples/remittances.ach");
    /// let held = ach::check(ach::Way::Plain, file)?;
    /// let rows = ach::CODES.iter().zip(held.by_code.chunks_exact(2));
    /// let twice: Vec<(u8, u64)> =
    ///     rows.filter(|(_, row)| row[0] == 2).map(|(code, row)| (*code, row[1])).collect();
    /// assert_eq!(twice, [(24, 0)]);
    /// # Ok::<(), ach::Refusal>(())
    /// ```
    pub by_code: [u64; 24],
}

/// Tells what an ACH file of this way holds, or the first reason why it is none. For its rows as
/// well, ask with [`check_into`].
///
/// ```
/// use ach::Way;
///
/// let file = include_bytes!("../../../samples/whole.ach");
/// let held = ach::check(Way::Plain, file)?;
/// assert_eq!((held.batches, held.entries, held.addenda), (1, 2, 1));
/// assert_eq!((held.debit, held.credit), (0, 12_550));
///
/// let lined = include_bytes!("../../../samples/whole-lined.ach");
/// assert_eq!(ach::check(Way::Lined, lined)?, held);
///
/// let refusal = ach::check(Way::Plain, &file[..94]).unwrap_err();
/// assert_eq!((refusal.number, refusal.record, refusal.field), (2, 2, 0));
/// # Ok::<(), ach::Refusal>(())
/// ```
pub fn check(way: Way, file: &[u8]) -> Result<Acceptance, Refusal> {
    check_into(way, file, &mut vec![0; way.room_for_rows(file.len())])
}

/// Checks a file as [`check`] does, and puts its rows in front of the ones lent: for
/// each batch the record number of its control, and the credits so far. What stands behind stays.
/// [`Way::room_for_rows`] says how much room suffices; too little is refused (23), last.
///
/// ```
/// use ach::Way;
///
/// let file = include_bytes!("../../../samples/gaps.ach");
/// let mut rows = [7; 5];
/// assert_eq!(ach::check_into(Way::Plain, file, &mut rows)?.batches, 2);
/// assert_eq!(rows, [7, 684_610, 11, 900_635, 7]);
/// assert_eq!(ach::check_into(Way::Plain, file, &mut rows[..3]).unwrap_err().number, 23);
/// # Ok::<(), ach::Refusal>(())
/// ```
pub fn check_into(way: Way, file: &[u8], rows: &mut [u64]) -> Result<Acceptance, Refusal> {
    let mut numbers = [0; ACCEPTANCE_LENGTH];
    let (bytes, size) = (file.as_ptr(), file.len());
    let (list, room) = (rows.as_mut_ptr(), rows.len());
    // SAFETY: the pointers come from slices and an array of the lengths that the boundary is told or
    // names; those for writing do not overlap the others.
    let answer =
        unsafe { boundary::ach_check(way.number(), bytes, size, numbers.as_mut_ptr(), list, room) };
    granted(answer)?;
    let [batches, entries, addenda, debit, credit, by_code @ ..] = numbers;
    Ok(Acceptance { batches, entries, addenda, debit, credit, by_code })
}

/// The line that the check program prints for an answer: `OK batches entries addenda debit credit`
/// with the sums in cents, or `NO number record field`.
///
/// ```
/// use ach::Way;
///
/// let file = include_bytes!("../../../samples/whole.ach");
/// assert_eq!(ach::line(&ach::check(Way::Plain, file)), "OK 1 2 1 0 12550");
/// assert_eq!(ach::line(&ach::check(Way::Plain, b"")), "NO 1 0 0");
/// ```
pub fn line(answer: &Result<Acceptance, Refusal>) -> String {
    match answer {
        Ok(Acceptance { batches, entries, addenda, debit, credit, .. }) => {
            format!("OK {batches} {entries} {addenda} {debit} {credit}")
        }
        Err(Refusal { number, record, field }) => format!("NO {number} {record} {field}"),
    }
}
