//! The lines stated with the vectors against the independent implementation, and the vectors
//! against the list of what they have to show.

use generate::lines::LINED_RECORD;
use independent::{check, line, Refusal, Way};
use std::collections::BTreeSet;

/// A field and the numbers that it can be refused with.
type Refusals = (u8, &'static [u8]);

/// The fields of every record type.
const REFUSALS: [(u8, &[Refusals]); 6] = [
    (
        b'1',
        &[
            (2, &[5]),
            (3, &[5, 6, 12]),
            (4, &[6, 11]),
            (5, &[6, 10]),
            (6, &[6, 10]),
            (7, &[11]),
            (8, &[5]),
            (9, &[5]),
            (10, &[5]),
            (11, &[7, 9]),
            (12, &[7, 9]),
            (13, &[7, 9]),
        ],
    ),
    (
        b'5',
        &[
            (2, &[6, 11]),
            (3, &[7, 8, 9]),
            (4, &[7, 9]),
            (5, &[7, 8, 9]),
            (6, &[11]),
            (7, &[7, 8, 9]),
            (8, &[7, 9]),
            (9, &[6, 10]),
            (10, &[5]),
            (11, &[5]),
            (12, &[6]),
            (13, &[6, 17]),
        ],
    ),
    (
        b'6',
        &[
            (2, &[6, 11, 15, 28]),
            (3, &[6, 13]),
            (4, &[6, 12]),
            (5, &[7, 8, 9]),
            (6, &[6, 14]),
            (7, &[7, 9]),
            (8, &[7, 8, 9]),
            (9, &[7, 9]),
            (10, &[11, 28]),
            (11, &[6, 16]),
        ],
    ),
    (b'7', &[(2, &[5]), (3, &[7, 9]), (4, &[5]), (5, &[6, 16])]),
    (
        b'8',
        &[
            (2, &[22]),
            (3, &[6, 18]),
            (4, &[6, 19]),
            (5, &[6, 20, 21]),
            (6, &[6, 20, 21]),
            (7, &[22]),
            (8, &[5]),
            (9, &[5]),
            (10, &[22]),
            (11, &[22]),
        ],
    ),
    (
        b'9',
        &[
            (2, &[6, 18]),
            (3, &[6, 18]),
            (4, &[6, 18]),
            (5, &[6, 19]),
            (6, &[6, 20, 21]),
            (7, &[6, 20, 21]),
            (8, &[5]),
        ],
    ),
];

#[test]
fn the_independent_implementation_agrees() {
    for vector in vectors::all() {
        assert_eq!(line(&check(Way::Plain, &vector.file)), vector.line, "{}", vector.about);
    }
    for vector in vectors::lined() {
        assert_eq!(line(&check(Way::Lined, &vector.file)), vector.line, "{}", vector.about);
    }
}

/// A line end is refused behind every record type and behind fillers, the last one too.
#[test]
fn the_number_of_line_ends_is_shown() {
    let mut types = BTreeSet::new();
    let mut at_end = 0;
    for vector in vectors::lined() {
        if let Err(Refusal { number: 26, record, field: 0 }) = check(Way::Lined, &vector.file) {
            let start = (record as usize - 1) * LINED_RECORD;
            types.insert(vector.file[start..start + 2].to_vec());
            at_end += usize::from(start + LINED_RECORD == vector.file.len());
        }
    }
    let first_columns: BTreeSet<u8> = types.iter().map(|start| start[0]).collect();
    assert_eq!(first_columns, BTreeSet::from(*b"156789"));
    assert!(types.contains(b"99".as_slice()) && types.contains(b"90".as_slice()));
    assert!(at_end > 0);
}

#[test]
fn every_vector_has_its_twin() {
    let lined = vectors::lined();
    for vector in vectors::all() {
        let file = generate::lines::lined(&vector.file);
        let twin = lined.iter().find(|twin| twin.file == file);
        assert_eq!(twin.map(|twin| &twin.line), Some(&vector.line), "{}", vector.about);
    }
}

#[test]
fn every_number_of_every_field_is_shown() {
    let shown: BTreeSet<(u8, u8, u8)> = vectors::all()
        .iter()
        .filter_map(|vector| Some((vector, check(Way::Plain, &vector.file).err()?)))
        .filter(|(_, refusal)| refusal.field > 1)
        .map(|(vector, refusal)| {
            let record_type = vector.file[(refusal.record as usize - 1) * 94];
            (record_type, refusal.field, refusal.number)
        })
        .collect();
    let due: BTreeSet<(u8, u8, u8)> = REFUSALS
        .iter()
        .flat_map(|(record_type, fields)| fields.iter().map(move |field| (*record_type, field)))
        .flat_map(|(record_type, (field, numbers))| {
            numbers.iter().map(move |number| (record_type, *field, *number))
        })
        .collect();
    assert_eq!(shown, due);
}

#[test]
fn the_numbers_of_structure_are_shown() {
    let lines: BTreeSet<String> = vectors::all().into_iter().map(|vector| vector.line).collect();
    for line in ["NO 1 0 0", "NO 2 2 0", "NO 3 1 1", "NO 4 11 0", "NO 5 8 0", "OK 1 2 1 0 12550"] {
        assert!(lines.contains(line), "{line}");
    }
}

#[test]
fn the_vectors_are_few_enough_to_be_numbered() {
    for count in [vectors::all().len(), vectors::lined().len()] {
        assert!(count < 1_000, "{count}");
    }
}
