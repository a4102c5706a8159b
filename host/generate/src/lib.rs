//! ACH files and pay tables for tests, the same from the same seed: files in order, files at the
//! edge of a rule, and damaged ones.
//!
//! Nothing here asks an implementation of the rules. A [`Plan`] renders its file and its table,
//! controls included, from the values somebody chose.

pub mod columns;
pub mod controls;
pub mod copies;
pub mod damage;
pub mod funds;
pub mod lines;
pub mod lists;
mod plan;
mod random;
pub mod recalls;
pub mod remittances;
pub mod seal;
mod shapes;
pub mod tables;

pub use columns::RECORD;
pub use plan::{
    is_credit, is_payment, is_remittance, routing_check_digit, Batch, Builder, Entry, Header, Plan,
};
pub use random::Random;
pub use shapes::{big_file, near_limit, plan, sample, BigFile, CODES, CODES_IN_PPD};
