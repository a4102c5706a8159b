//! What several tests need: samples, and files in both ways.
#![allow(dead_code)]

use ach::Way;
use generate::lines::lined;

pub const GAPS: &[u8] = include_bytes!("../../../../samples/gaps.ach");
pub const GAPS_LINED: &[u8] = include_bytes!("../../../../samples/gaps-lined.ach");
pub const GAPS_IN_BOTH_WAYS: [(Way, &[u8]); 2] = [(Way::Plain, GAPS), (Way::Lined, GAPS_LINED)];

/// The sample without its entries 2, 3, 5 and 6.
pub const RECALLED: &[u8] = include_bytes!("../../../../samples/recalled.ach");

/// A client's list, the two rows that it is imported with, and the table that it becomes.
pub const LIST: &[u8] = include_bytes!("../../../../samples/team.csv");
pub const FILE_ROW: &[u8] = include_bytes!("../../../../samples/team.file-row");
pub const BATCH_ROW: &[u8] = include_bytes!("../../../../samples/team.batch-row");
pub const LISTED: &[u8] = include_bytes!("../../../../samples/team.table");

/// A file without line ends, in both ways.
pub fn in_both_ways(file: &[u8]) -> [(Way, Vec<u8>); 2] {
    [(Way::Plain, file.to_vec()), (Way::Lined, lined(file))]
}
