//! Counts cases, and reports those in which the two sides differ.

use crate::guard::PATTERN;
use crate::rows::Rows;
use independent::Refusal;
use std::path::PathBuf;

/// How many differences are shown; the rest are counted.
const MOST_REPORTS: u64 = 10;

/// No bytes are no file.
pub const NO_FILE: Refusal = Refusal { number: 1, record: 0, field: 0 };

/// What a call came to: its answer, and what the lent numbers, the lent memory and the lent rows hold
/// afterwards.
#[derive(Clone, PartialEq)]
pub struct Outcome<'m, const N: usize> {
    pub answer: u64,
    pub numbers: [u64; N],
    pub memory: &'m [u8],
    rows: &'m [u64],
}

impl<'m, const N: usize> Outcome<'m, N> {
    /// Of a call that is lent no rows.
    pub fn new(answer: u64, numbers: [u64; N], memory: &'m [u8]) -> Self {
        Outcome { answer, numbers, memory, rows: &[] }
    }

    pub fn refused(refusal: Refusal, memory: &'m [u8]) -> Self {
        Outcome::new(answer(refusal), [PATTERN; N], memory)
    }

    pub fn with_rows(self, rows: &'m Rows) -> Self {
        Outcome { rows: rows.all(), ..self }
    }
}

#[derive(Default)]
pub struct Tally {
    cases: u64,
    differences: u64,
}

impl Tally {
    pub fn cases(&self) -> u64 {
        self.cases
    }

    pub fn differences(&self) -> u64 {
        self.differences
    }

    /// Counts a case, and reports it if the outcome given is not the one expected.
    pub fn compare<const N: usize>(
        &mut self,
        about: &str,
        input: &[u8],
        given: Outcome<N>,
        expected: Outcome<N>,
    ) {
        self.cases += 1;
        if given == expected {
            return;
        }
        self.differences += 1;
        if self.differences <= MOST_REPORTS {
            println!("difference {}: {about}", self.differences);
            println!("given    {}", described(&given));
            println!("expected {}", described(&expected));
            report_memory("memory", given.memory, expected.memory);
            report_memory("rows", given.rows, expected.rows);
            self.keep_input(input);
        }
    }

    /// Counts a case, and reports it if what has to hold does not.
    pub fn holds(&mut self, about: &str, input: &[u8], holds: bool) {
        self.cases += 1;
        if holds {
            return;
        }
        self.differences += 1;
        if self.differences <= MOST_REPORTS {
            println!("difference {}: {about} does not hold", self.differences);
            self.keep_input(input);
        }
    }

    fn keep_input(&self, input: &[u8]) {
        let path = self.path_for_input();
        match std::fs::write(&path, input) {
            Ok(()) => println!("input of {} bytes: {}", input.len(), path.display()),
            Err(error) => println!("input not written to {}: {error}", path.display()),
        }
    }

    fn path_for_input(&self) -> PathBuf {
        let name = format!("ach-difference-{}-{}", std::process::id(), self.differences);
        std::env::temp_dir().join(name)
    }
}

fn report_memory<T: PartialEq>(name: &str, given: &[T], expected: &[T]) {
    if given != expected {
        let same = given.iter().zip(expected).take_while(|(one, other)| one == other);
        println!("the lent {name} differ from offset {} on", same.count());
    }
}

fn described<const N: usize>(outcome: &Outcome<N>) -> String {
    let answer = outcome.answer;
    let verdict = match answer {
        0 => "granted".to_string(),
        _ => format!("NO {} {} {}", answer & 0xFF, answer >> 16, answer >> 8 & 0xFF),
    };
    let numbers = outcome.numbers.map(|number| match number {
        PATTERN => "untouched".to_string(),
        // The one number that can be negative is a difference.
        _ => (number as i64).to_string(),
    });
    format!("{verdict}, {}", numbers.join(" "))
}

/// A refusal as the boundary spells it.
pub fn answer(refusal: Refusal) -> u64 {
    u64::from(refusal.number) + 256 * u64::from(refusal.field) + 65_536 * refusal.record
}
