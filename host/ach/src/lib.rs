//! Qalarimo ACH: checking, reading, writing, altering and mending ACH payment files, taking entries
//! out of them, where their credits pass a limit, and client lists.
//!
//! The work is done by a proved library, which this crate links as an archive. What is here turns
//! slices into pointers and numbers into answers, and nothing else. Every function takes any
//! bytes, does its own checking, and leaves what it was lent untouched when it refuses.
//!
//! A *file* is records of 94 columns in one of two [ways](Way): back to back, or with CR LF behind
//! every record. A *pay table* holds the same payments without what can be computed from them:
//! counts, hashes, totals, fillers and line ends. A *list* holds payments as comma lines, as
//! spreadsheets export them; it becomes a table by [`import`], and [`export`] makes one of a table.
//! The *rows* of a file are two numbers for each batch, the record number of its control and the
//! credits so far in cents. The check gives them ([`check_into`], [`rows_of`]), [`alter`] and
//! [`take_out`] keep them true, and [`runs_out`] asks them where a limit is passed. A file that
//! is refused for its controls or fillers alone is put right by [`mend`].
//!
//! ```
//! use ach::Way;
//!
//! let table = include_bytes!("../../../samples/whole.table");
//! let mut file = ach::file_of(Way::Plain, table)?;
//! assert_eq!(ach::check(Way::Plain, &file)?.credit, 12_550);
//! let mut rows = ach::rows_of(Way::Plain, &file)?;
//! assert_eq!(ach::alter(Way::Plain, &mut file, &mut rows, 1, 20_000)?, 10_000);
//! assert_eq!(ach::check(Way::Plain, &file)?.credit, 22_550);
//! assert!(ach::runs_out(&rows, 22_549).found.is_some());
//! assert!(ach::runs_out(&rows, 22_550).found.is_none());
//! # Ok::<(), ach::Refusal>(())
//! ```

#![deny(missing_docs)]

pub mod boundary;
mod check;
mod entries;
pub mod fields;
mod funds;
mod lines;
mod mend;
mod refusal;
mod sizes;
mod table;
mod way;

pub use check::{check, check_into, line, Acceptance, ACCEPTANCE_LENGTH, CODES};
pub use entries::{addendum, alter, take_out};
pub use funds::{rows_of, runs_out, Row, RunsOut};
pub use lines::{
    export, export_into, import, import_into, room_for_lines, room_for_table, LineField,
    LINE_FIELDS,
};
pub use mend::{mend, mend_into, Change, Changes, Fillers, Mended};
pub use refusal::{reason, Refusal};
pub use sizes::{BATCH_ROW, FILE_ROW, LONGEST_TABLE};
pub use table::{file_of, read, table_of, write};
pub use way::Way;
