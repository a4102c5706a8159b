//! The proved library on the files whose verdict is known.

use ach::boundary::ach_check;
use ach::{Refusal, Way};

#[test]
fn every_vector_has_its_line() {
    for vector in vectors::all() {
        let said = ach::line(&ach::check(Way::Plain, &vector.file));
        assert_eq!(said, vector.line, "{}", vector.about);
    }
    for vector in vectors::lined() {
        let said = ach::line(&ach::check(Way::Lined, &vector.file));
        assert_eq!(said, vector.line, "{}", vector.about);
    }
}

/// At the boundary 0 is the first way, and every other number the second.
#[test]
fn every_number_is_a_way() {
    let numbers =
        [1, 2, 3, 94, 96, 255, 256, 1 << 16, u64::from(u32::MAX), 1 << 32, 1 << 63, u64::MAX];
    for vector in vectors::lined() {
        let lined = answer(1, &vector.file);
        for number in numbers {
            assert_eq!(answer(number, &vector.file), lined, "{number}: {}", vector.about);
        }
        let plain = ach::check(Way::Plain, &vector.file);
        let (answer, held) = answer(0, &vector.file);
        assert_eq!(answer == 0, plain.is_ok());
        match plain {
            Ok(plain) => assert_eq!((held[0], held[4]), (plain.batches, plain.credit)),
            Err(Refusal { number, record, field }) => {
                let expected = u64::from(number) + 256 * u64::from(field) + 65_536 * record;
                assert_eq!(answer, expected, "{}", vector.about);
            }
        }
    }
}

fn answer(way: u64, file: &[u8]) -> (u64, [u64; ach::ACCEPTANCE_LENGTH]) {
    let mut held = [7; ach::ACCEPTANCE_LENGTH];
    let mut rows = vec![7; file.len() / 141];
    let (list, room) = (rows.as_mut_ptr(), rows.len());
    // SAFETY: the pointers come from slices and an array of the lengths that the boundary is told or
    // names.
    let answer =
        unsafe { ach_check(way, file.as_ptr(), file.len(), held.as_mut_ptr(), list, room) };
    (answer, held)
}
