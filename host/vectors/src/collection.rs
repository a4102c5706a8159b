//! The files collected so far, each with its line.

use generate::{is_credit, Plan};
use std::collections::BTreeSet;

pub struct Vector {
    /// What the file shows, for people.
    pub about: String,
    pub file: Vec<u8>,
    /// The line due, without its line feed.
    pub line: String,
}

/// The number of a refusal, then its record and its field.
pub type Refusal = (u8, usize, u8);

#[derive(Default)]
pub struct Collection {
    vectors: Vec<Vector>,
    seen: BTreeSet<Vec<u8>>,
}

impl Collection {
    /// What was added, in order, each file once.
    pub fn into_vectors(self) -> Vec<Vector> {
        self.vectors
    }

    /// Adds a file that is refused.
    pub fn refused(&mut self, about: &str, file: Vec<u8>, refusal: Refusal) {
        let (number, record, field) = refusal;
        self.add(about, file, format!("NO {number} {record} {field}"));
    }

    /// Adds the file of a plan that is accepted.
    pub fn accepted(&mut self, about: &str, plan: &Plan) {
        self.add(about, plan.file(), accepting_line(plan));
    }

    pub fn add(&mut self, about: &str, file: Vec<u8>, line: String) {
        if self.seen.insert(file.clone()) {
            let about = about.to_string();
            self.vectors.push(Vector { about, file, line });
        }
    }
}

/// The line for a plan that is in order, counted from its values.
pub fn accepting_line(plan: &Plan) -> String {
    let entries = || plan.batches.iter().flat_map(|batch| &batch.entries);
    let sum = |credit: bool| -> u64 {
        let of_side = entries().filter(|entry| is_credit(entry.code) == credit);
        of_side.map(|entry| entry.amount).sum()
    };
    let addenda = entries().filter(|entry| entry.addendum.is_some()).count();
    format!(
        "OK {} {} {addenda} {} {}",
        plan.batches.len(),
        entries().count(),
        sum(false),
        sum(true)
    )
}
