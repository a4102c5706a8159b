//! Lent rows between guards, and how many numbers are lent for them.

use crate::guard::{Guarded, PATTERN};
use std::ptr::null_mut;

/// Numbers lent for rows. All of them are looked at afterwards, and so are the guards around them.
pub struct Rows(Guarded<u64>);

impl Rows {
    pub fn new(numbers: &[u64]) -> Self {
        Rows(Guarded::new(numbers, PATTERN))
    }

    /// To no numbers the pointer may be null.
    pub fn pointer(&mut self) -> *mut u64 {
        if self.0.content().is_empty() {
            null_mut()
        } else {
            self.0.pointer()
        }
    }

    pub fn numbers(&self) -> &[u64] {
        self.0.content()
    }

    pub fn all(&self) -> &[u64] {
        self.0.all()
    }
}

/// So many numbers to be lent, which nobody has written to.
pub fn untouched(room: usize) -> Vec<u64> {
    vec![PATTERN; room]
}

/// By turns just enough for rows of so many numbers, one more and a few more.
pub fn enough_for(need: usize, turn: u64) -> usize {
    need + [0, 1, 2, 7][turn as usize % 4]
}

/// The rows, and behind them as many numbers as there are in enough room for them.
pub fn and_more(rows: &[u64], turn: u64) -> Vec<u64> {
    let more = enough_for(rows.len(), turn) - rows.len();
    [rows, &untouched(more)].concat()
}

/// By turns a number too few for the rows, two too few, one and none.
pub fn short_of(need: usize, turn: u64) -> usize {
    [need.saturating_sub(1), need.saturating_sub(2), need.min(2) / 2, 0][turn as usize % 4]
}
