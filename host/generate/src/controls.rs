//! Damage to controls and fillers alone, which follow from the other records.

use crate::columns::{field_count, place, record_range, RECORD};
use crate::copies::with_field;
use crate::damage::field_values;
use crate::random::Random;

pub const FILLER: [u8; RECORD] = [b'9'; RECORD];

/// The numbers of the batch controls of a file in order, and behind them that of its file control.
pub fn controls(file: &[u8]) -> Vec<usize> {
    let types = || file.chunks_exact(RECORD).map(|record| record[0]).zip(1..);
    let batches = types().filter(|(digit, _)| *digit == b'8');
    let whole = types().find(|(digit, _)| *digit == b'9');
    batches.chain(whole).map(|(_, number)| number).collect()
}

/// The records up to the file control, which has this number, and so many fillers.
pub fn with_fillers(file: &[u8], control: usize, fillers: usize) -> Vec<u8> {
    [&file[..control * RECORD], &FILLER.repeat(fillers)].concat()
}

/// A copy in which nothing but the type of any control is right.
pub fn without_controls(file: &[u8], byte: u8) -> Vec<u8> {
    let mut changed = file.to_vec();
    for number in controls(file) {
        changed[record_range(number)][1..].fill(byte);
    }
    changed
}

/// Does one random thing to one of the controls of a file, and none to its type.
pub fn random_control_damage(random: &mut Random, file: &[u8]) -> Vec<u8> {
    let controls = controls(file);
    let number = *random.pick(&controls);
    let mut changed = file.to_vec();
    match random.below(6) {
        0 => changed[record_range(number)][1..].fill_with(|| random.byte()),
        1 => changed[record_range(number)][1..].fill(*random.pick(b" 09A\0")),
        2 => {
            let other = record_range(*random.pick(&controls));
            changed[record_range(number)][1..].copy_from_slice(&file[other][1..]);
        }
        3 => changed[record_range(number)][1 + random.below(RECORD - 1)] = random.byte(),
        _ => return with_other_value(random, file, number),
    }
    changed
}

/// A copy in which one field of a control, not its type, has another value near its own.
fn with_other_value(random: &mut Random, file: &[u8], number: usize) -> Vec<u8> {
    let digit = file[record_range(number).start];
    let field = 2 + random.below(usize::from(field_count(digit)) - 1) as u8;
    let values = field_values(digit, field, &file[place(file, number, field)]);
    with_field(file, number, field, random.pick(&values))
}
