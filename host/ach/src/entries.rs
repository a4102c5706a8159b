//! Entries of a file by their number: a new amount, a recall, the text of the addendum.

use crate::boundary;
use crate::refusal::{granted, Refusal};
use crate::way::Way;

/// Gives an entry, counted from 1, a new amount in cents and brings the totals along, and the file's
/// rows, which have to stand in front of the ones lent (else 34); what stands behind them stays.
/// Tells the new amount less the old.
///
/// ```
/// use ach::Way;
///
/// let mut file = *include_bytes!("../../../samples/whole.ach");
/// let mut rows = ach::rows_of(Way::Plain, &file)?;
/// assert_eq!(ach::alter(Way::Plain, &mut file, &mut rows, 2, 2_500)?, -50);
/// assert_eq!(rows, [6, 12_500]);
/// let refusal = ach::alter(Way::Plain, &mut file, &mut rows, 2, 0).unwrap_err();
/// assert_eq!((refusal.number, refusal.record, refusal.field), (14, 4, 6));
/// let refusal = ach::alter(Way::Plain, &mut file, &mut [6, 12_550], 2, 2_550).unwrap_err();
/// assert_eq!(refusal.to_string(), "refusal 34: the rows lent are not those of the file");
/// assert_eq!(ach::check(Way::Plain, &file)?.credit, 12_500);
/// # Ok::<(), ach::Refusal>(())
/// ```
pub fn alter(
    way: Way,
    file: &mut [u8],
    rows: &mut [u64],
    entry: u64,
    amount: u64,
) -> Result<i64, Refusal> {
    let mut difference = 0;
    let (space, size) = (file.as_mut_ptr(), file.len());
    let (list, room) = (rows.as_mut_ptr(), rows.len());
    // SAFETY: the pointers come from slices of the lengths told; both are lent for writing and do not
    // overlap.
    let answer = unsafe {
        boundary::ach_alter(way.number(), space, size, list, room, entry, amount, &mut difference)
    };
    granted(answer)?;
    Ok(difference)
}

/// Takes entries out, counted from 1 through the file as it is lent, with their addenda and with
/// the batches that they leave empty, and brings the controls and the fillers along. Tells the new
/// length; from there on the lent bytes are blanks. The rows of what is left go to the front of the
/// ones lent, whatever those held: two numbers for each batch left are room enough (else 23).
///
/// The result is the file of the pay table without those rows; traces and batch numbers stay. The
/// numbers may stand in any order, and repeats count once. At least one entry has to be left.
///
/// It needs 140,000 bytes of stack, for a bit for each entry that a file can have.
///
/// ```
/// use ach::Way;
///
/// let mut file = *include_bytes!("../../../samples/gaps.ach");
/// let mut rows = [0; 2];
/// let length = ach::take_out(Way::Plain, &mut file, &[6, 2, 3, 5, 3], &mut rows)?;
/// assert_eq!(&file[..length], include_bytes!("../../../samples/recalled.ach"));
/// assert_eq!(file[length..], [b' '; 10 * 94]);
/// assert_eq!(rows, [5, 329_610]);
///
/// let file = &mut file[..length];
/// assert_eq!(ach::take_out(Way::Plain, file, &[3], &mut rows).unwrap_err().number, 25);
/// assert_eq!(ach::take_out(Way::Plain, file, &[1, 2], &mut rows).unwrap_err().number, 27);
/// assert_eq!(ach::take_out(Way::Plain, file, &[1], &mut []).unwrap_err().number, 23);
/// assert_eq!(ach::check(Way::Plain, file)?.entries, 2);
/// # Ok::<(), ach::Refusal>(())
/// ```
pub fn take_out(
    way: Way,
    file: &mut [u8],
    entries: &[u64],
    rows: &mut [u64],
) -> Result<usize, Refusal> {
    let mut length = 0;
    // SAFETY: as for `alter`; the entries are lent for reading and do not overlap the rest.
    let answer = unsafe {
        boundary::ach_take_out(
            way.number(),
            file.as_mut_ptr(),
            file.len(),
            entries.as_ptr(),
            entries.len(),
            rows.as_mut_ptr(),
            rows.len(),
            &mut length,
        )
    };
    granted(answer)?;
    Ok(length as usize)
}

/// The 80 bytes of text in the addendum of an entry, counted from 1; nothing if it has none.
///
/// ```
/// use ach::Way;
///
/// let file = include_bytes!("../../../samples/whole-lined.ach");
/// assert_eq!(ach::addendum(Way::Lined, file, 1)?, b"");
/// let text = ach::addendum(Way::Lined, file, 2)?;
/// assert!(text.len() == 80 && text.starts_with(b"REIMBURSEMENT OF TRAVEL, OCTOBER "));
/// assert_eq!(ach::addendum(Way::Lined, file, 3).unwrap_err().number, 25);
/// # Ok::<(), ach::Refusal>(())
/// ```
pub fn addendum(way: Way, file: &[u8], entry: u64) -> Result<&[u8], Refusal> {
    let (mut start, mut length) = (0, 0);
    let (bytes, size) = (file.as_ptr(), file.len());
    // SAFETY: the pointer comes from a slice of the length told.
    let answer = unsafe {
        boundary::ach_addendum(way.number(), bytes, size, entry, &mut start, &mut length)
    };
    granted(answer)?;
    Ok(&file[start as usize..][..length as usize])
}
