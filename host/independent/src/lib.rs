//! Checking, reading, writing, altering and mending ACH payment files, taking entries out of them,
//! where their credits pass a limit, and client lists, in plain Rust.
//!
//! Written from the scope paper and its change requests alone. The proved library of Qalarimo ACH is
//! tested against this crate, and timed against it, so nothing here is taken from there.

mod alter;
mod check;
mod code;
mod comma;
mod field;
mod funds;
mod layout;
mod mend;
mod outcome;
mod records;
mod sizes;
mod table;
mod take_out;

pub use alter::{addendum, alter};
pub use check::check;
pub use comma::{export, export_into, import, import_into};
pub use funds::{check_into, rows_of, runs_out, RunsOut};
pub use mend::{mend, mend_into, Mended};
pub use outcome::{line, reason, Acceptance, Refusal};
pub use records::Way;
pub use table::{read, read_into, write, write_into};
pub use take_out::take_out;
