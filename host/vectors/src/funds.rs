//! The list that the check gives: the check program lends room for the rows of any file it looks at.

use crate::collection::Collection;
use generate::{sample, Batch, Entry, Plan};

/// Two records of the file, and three of each batch, are just below what is looked at.
const MOST_BATCHES: u32 = 229;

pub fn collect(to: &mut Collection) {
    to.accepted("as many batches as a file has that is looked at", &of_batches(MOST_BATCHES));
}

/// Batches of one entry each.
fn of_batches(count: u32) -> Plan {
    let mut plan = sample();
    let mut model = plan.batches.remove(0);
    let entry = model.entries.remove(0);
    for number in 1..=count {
        let entries = vec![Entry { amount: u64::from(number), ..entry.clone() }];
        plan.batches.push(Batch { number, entries, ..model.clone() });
    }
    plan
}
