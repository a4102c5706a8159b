//! Client lists as comma lines: a list becomes a pay table, and a table's entries a list.

use crate::boundary;
use crate::refusal::{granted, Refusal};
use crate::sizes::{BATCH_ROW, EMPTY_TABLE, ENTRY_ROW};
use crate::table::in_room_of;

/// A field of a line.
#[derive(Clone, Copy, Debug, PartialEq, Eq)]
pub struct LineField {
    /// What it is called.
    pub name: &'static str,
    /// How many columns an entry has for it. An amount has ten digits there, of cents.
    pub width: usize,
}

/// The fields of a line, in order.
///
/// ```
/// let names = ach::LINE_FIELDS.map(|field| field.name);
/// assert_eq!(names[2..4], ["account", "amount"]);
/// ```
pub const LINE_FIELDS: [LineField; 6] = [
    LineField { name: "code", width: 2 },
    LineField { name: "routing number", width: 9 },
    LineField { name: "account", width: 17 },
    LineField { name: "amount", width: 10 },
    LineField { name: "identification", width: 15 },
    LineField { name: "name", width: 22 },
];

/// The table of an import without its entries.
const TABLE_OF_NO_LINES: usize = EMPTY_TABLE + BATCH_ROW;

/// A file of a million records has no room for more lines.
const MOST_LINES: usize = 999_996;

/// The shortest line that becomes an entry: codes and numbers in full, a digit of account, 0.00, no
/// identification and a letter of name; with its break, which the last line may lack.
const SHORTEST_LINE: usize = 24;

/// The longest line of an export: every byte of identification and name is a quote, and doubled.
const LONGEST_LINE: usize = 132;

/// Room that suffices for the pay table of any list of this length that has one.
///
/// ```
/// assert_eq!(ach::room_for_table(0), 204);
/// assert_eq!(ach::room_for_table(22), 204 + 93);
/// ```
pub const fn room_for_table(lines_length: usize) -> usize {
    let lines = lines_length.saturating_add(2) / SHORTEST_LINE;
    TABLE_OF_NO_LINES + ENTRY_ROW * if lines < MOST_LINES { lines } else { MOST_LINES }
}

/// Room that suffices for the lines of any pay table of this length that has some.
///
/// ```
/// let table = include_bytes!("../../../samples/whole.table");
/// assert!(ach::export(table)?.len() <= ach::room_for_lines(table.len()));
/// # Ok::<(), ach::Refusal>(())
/// ```
pub const fn room_for_lines(table_length: usize) -> usize {
    let entries = table_length / ENTRY_ROW;
    LONGEST_LINE * if entries < MOST_LINES { entries } else { MOST_LINES }
}

/// The pay table of a list, in memory of its own: one batch with an entry for each line.
///
/// A line is six fields in the grammar of RFC 4180: code, routing number, account, amount (digits,
/// a point and two digits), identification and name. There is no header line.
///
/// ```
/// use ach::Way;
///
/// let file_row = include_bytes!("../../../samples/team.file-row");
/// let batch_row = include_bytes!("../../../samples/team.batch-row");
/// let lines = b"22,322070381,4410-22871,100.00,E-1001,\"MARLOWE, ADA\"\r\n";
/// let table = ach::import(file_row, batch_row, lines)?;
/// assert_eq!(table.len(), 204 + 93);
/// let file = ach::file_of(Way::Plain, &table)?;
/// assert_eq!(ach::check(Way::Plain, &file)?.credit, 10_000);
///
/// let lines = b"22,322070381,4410-22871,100,E-1001,ADA";
/// let refusal = ach::import(file_row, batch_row, lines).unwrap_err();
/// assert_eq!((refusal.number, refusal.record, refusal.field), (30, 1, 4));
/// # Ok::<(), ach::Refusal>(())
/// ```
pub fn import(file_row: &[u8], batch_row: &[u8], lines: &[u8]) -> Result<Vec<u8>, Refusal> {
    in_room_of(room_for_table(lines.len()), |room| import_into(file_row, batch_row, lines, room))
}

/// Writes the pay table of a list to the front of the room, and tells its length.
/// [`room_for_table`] says how much room suffices.
///
/// ```
/// let file_row = include_bytes!("../../../samples/team.file-row");
/// let batch_row = include_bytes!("../../../samples/team.batch-row");
/// let lines = b"22,322070381,4410-22871,100.00,E-1001,ADA";
/// let mut room = [b'?'; 300];
/// assert_eq!(ach::import_into(file_row, batch_row, lines, &mut room)?, 297);
/// assert_eq!(room[297..], *b"???");
/// let refusal = ach::import_into(file_row, batch_row, lines, &mut room[..296]).unwrap_err();
/// assert_eq!(refusal.number, 23);
/// # Ok::<(), ach::Refusal>(())
/// ```
pub fn import_into(
    file_row: &[u8],
    batch_row: &[u8],
    lines: &[u8],
    room: &mut [u8],
) -> Result<usize, Refusal> {
    let mut length = 0;
    // SAFETY: each pointer comes from a slice of the length behind it; the room is lent for writing
    // and does not overlap the others.
    let answer = unsafe {
        boundary::ach_import(
            file_row.as_ptr(),
            file_row.len(),
            batch_row.as_ptr(),
            batch_row.len(),
            lines.as_ptr(),
            lines.len(),
            room.as_mut_ptr(),
            room.len(),
            &mut length,
        )
    };
    granted(answer)?;
    Ok(length as usize)
}

/// The entries of a pay table as lines, in memory of their own: every field in quotes, without the
/// blanks behind it, and CR LF behind every line.
///
/// ```
/// let table = include_bytes!("../../../samples/whole.table");
/// let lines = ach::export(table)?;
/// let first = b"\"22\",\"322070381\",\"4410-22871\",\"100.00\",\"E-1001\",\"MARLOWE, ADA\"\r\n";
/// assert!(lines.starts_with(first));
/// assert_eq!(ach::export(b"no table").unwrap_err().number, 24);
/// # Ok::<(), ach::Refusal>(())
/// ```
pub fn export(table: &[u8]) -> Result<Vec<u8>, Refusal> {
    in_room_of(room_for_lines(table.len()), |room| export_into(table, room))
}

/// Writes the entries of a pay table as lines to the front of the room, and tells their length.
/// [`room_for_lines`] says how much room suffices.
///
/// ```
/// let table = include_bytes!("../../../samples/whole.table");
/// let mut room = [b'?'; 200];
/// let length = ach::export_into(table, &mut room)?;
/// assert!(room[..length].ends_with(b"\"OKAFOR, BEN\"\r\n"));
/// assert_eq!(room[length], b'?');
/// assert_eq!(ach::export_into(table, &mut room[..length - 1]).unwrap_err().number, 23);
/// # Ok::<(), ach::Refusal>(())
/// ```
pub fn export_into(table: &[u8], room: &mut [u8]) -> Result<usize, Refusal> {
    let mut length = 0;
    let (space, size) = (room.as_mut_ptr(), room.len());
    // SAFETY: as for `import_into`.
    let answer =
        unsafe { boundary::ach_export(table.as_ptr(), table.len(), space, size, &mut length) };
    granted(answer)?;
    Ok(length as usize)
}
