//! Pay tables: the table of a file, and the file of a table.

use crate::boundary;
use crate::refusal::{granted, Refusal};
use crate::way::Way;

/// Writes the pay table of a file to the front of the room, and tells its length.
///
/// ```
/// use ach::Way;
///
/// let file = include_bytes!("../../../samples/whole.ach");
/// let mut room = [b'?'; 500];
/// assert_eq!(ach::read(Way::Plain, file, &mut room)?, 470);
/// assert_eq!(&room[..470], include_bytes!("../../../samples/whole.table"));
/// assert_eq!(room[470..], [b'?'; 30]);
/// assert_eq!(ach::read(Way::Plain, file, &mut room[..469]).unwrap_err().number, 23);
/// # Ok::<(), ach::Refusal>(())
/// ```
pub fn read(way: Way, file: &[u8], room: &mut [u8]) -> Result<usize, Refusal> {
    let mut length = 0;
    let (space, size) = (room.as_mut_ptr(), room.len());
    // SAFETY: the pointers come from slices of the lengths told; the room is lent for writing and does
    // not overlap the file.
    let answer = unsafe {
        boundary::ach_read(way.number(), file.as_ptr(), file.len(), space, size, &mut length)
    };
    granted(answer)?;
    Ok(length as usize)
}

/// Writes the file of this way that a pay table stands for to the front of the room, and tells its
/// length. [`Way::room_for_file`] says how much room suffices.
///
/// ```
/// use ach::Way;
///
/// let table = include_bytes!("../../../samples/whole.table");
/// let mut room = [0; 940];
/// assert_eq!(ach::write(Way::Plain, table, &mut room)?, 940);
/// assert_eq!(&room, include_bytes!("../../../samples/whole.ach"));
/// assert_eq!(ach::write(Way::Lined, table, &mut room).unwrap_err().number, 23);
/// assert_eq!(ach::write(Way::Plain, b"no table", &mut room).unwrap_err().number, 24);
/// # Ok::<(), ach::Refusal>(())
/// ```
pub fn write(way: Way, table: &[u8], room: &mut [u8]) -> Result<usize, Refusal> {
    let mut length = 0;
    let (space, size) = (room.as_mut_ptr(), room.len());
    // SAFETY: as for `read`.
    let answer = unsafe {
        boundary::ach_write(way.number(), table.as_ptr(), table.len(), space, size, &mut length)
    };
    granted(answer)?;
    Ok(length as usize)
}

/// The pay table of a file, in memory of its own.
///
/// ```
/// use ach::Way;
///
/// let (file, lined) = (
///     include_bytes!("../../../samples/whole.ach"),
///     include_bytes!("../../../samples/whole-lined.ach"),
/// );
/// let table = include_bytes!("../../../samples/whole.table");
/// assert_eq!(ach::table_of(Way::Plain, file)?, table);
/// assert_eq!(ach::table_of(Way::Lined, lined)?, table);
/// # Ok::<(), ach::Refusal>(())
/// ```
pub fn table_of(way: Way, file: &[u8]) -> Result<Vec<u8>, Refusal> {
    // Every row of a table is shorter than the records that stand for it.
    in_room_of(file.len(), |room| read(way, file, room))
}

/// The file of this way that a pay table stands for, in memory of its own.
///
/// ```
/// use ach::Way;
///
/// let table = include_bytes!("../../../samples/whole.table");
/// assert_eq!(ach::file_of(Way::Plain, table)?, include_bytes!("../../../samples/whole.ach"));
/// assert_eq!(ach::file_of(Way::Lined, table)?, include_bytes!("../../../samples/whole-lined.ach"));
/// # Ok::<(), ach::Refusal>(())
/// ```
pub fn file_of(way: Way, table: &[u8]) -> Result<Vec<u8>, Refusal> {
    in_room_of(way.room_for_file(table.len()), |room| write(way, table, room))
}

/// What is put in front of a room of this size, in memory of its own.
pub(crate) fn in_room_of(
    most: usize,
    fill: impl Fn(&mut [u8]) -> Result<usize, Refusal>,
) -> Result<Vec<u8>, Refusal> {
    let mut room = vec![0; most];
    let length = fill(&mut room)?;
    room.truncate(length);
    Ok(room)
}
