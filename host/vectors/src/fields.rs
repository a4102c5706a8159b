//! One field of the sample at a time: each number it can be refused with, and values just inside.

use crate::collection::{accepting_line, Collection};
use generate::copies::with_field;
use generate::sample;

/// The records of the sample.
const FILE_HEADER: usize = 1;
const BATCH_HEADER: usize = 2;
const FIRST_ENTRY: usize = 3;
const SECOND_ENTRY: usize = 4;
const ADDENDUM: usize = 5;
const BATCH_CONTROL: usize = 6;
const FILE_CONTROL: usize = 7;

pub fn collect(to: &mut Collection) {
    file_header(to);
    batch_header(to);
    entry(to);
    addendum(to);
    batch_control(to);
    file_control(to);
}

/// A value of a field, and the number it is refused with; 0 if it passes.
type Case = (&'static str, u8);

fn cases(to: &mut Collection, record: usize, field: u8, cases: &[Case]) {
    for &(text, number) in cases {
        one_case(to, record, field, &format!("'{text}'"), text.as_bytes(), number);
    }
}

fn one_case(to: &mut Collection, record: usize, field: u8, about: &str, text: &[u8], number: u8) {
    let sample = sample();
    let about = format!("record {record} field {field}: {about}");
    let file = with_field(&sample.file(), record, field, text);
    if number == 0 {
        to.add(&about, file, accepting_line(&sample));
    } else {
        to.refused(&about, file, (number, record, field));
    }
}

/// The rules of text: a byte outside, a blank first, and all blank where that is allowed or not.
fn text_cases(to: &mut Collection, record: usize, field: u8, width: usize, mandatory: bool) {
    // The bytes just outside of text take turns.
    let outside = [b'a', b'z', 0x7F, 0x1F][usize::from(field) % 4];
    let mut bad_at_end = vec![b'X'; width];
    bad_at_end[width - 1] = outside;
    let about = "a byte that is no text in the last column";
    one_case(to, record, field, about, &bad_at_end, 7);

    let mut text = vec![b' '; width];
    let number = if mandatory { 8 } else { 0 };
    one_case(to, record, field, "all blank", &text, number);
    text[1] = b'X';
    one_case(to, record, field, "a blank first", &text, 9);
}

fn file_header(to: &mut Collection) {
    let record = FILE_HEADER;
    let lists: [(u8, &[Case]); 9] = [
        (2, &[("02", 5)]),
        (3, &[("0322070381", 5), (" 32207038A", 6)]),
        (3, &[(" 322070380", 12), (" 999999992", 0)]),
        (4, &[("A12345678 ", 6), ("/123456789", 11), ("0123456789", 0)]),
        (5, &[("2613 1", 6), ("010229", 10), ("261301", 10)]),
        (5, &[("000229", 0), ("991231", 0)]),
        (6, &[("12  ", 6), ("2400", 10), ("2360", 10), ("    ", 0), ("2359", 0)]),
        (7, &[("a", 11), ("[", 11), ("/", 11), ("Z", 0), ("0", 0)]),
        (11, &[("~!/:@[`{|}^_           ", 0)]),
    ];
    for (field, list) in lists {
        cases(to, record, field, list);
    }
    cases(to, record, 8, &[("095", 5)]);
    cases(to, record, 9, &[("11", 5)]);
    cases(to, record, 10, &[("0", 5)]);
    for (field, width) in [(11, 23), (12, 23), (13, 8)] {
        text_cases(to, record, field, width, false);
    }
}

fn batch_header(to: &mut Collection) {
    let record = BATCH_HEADER;
    cases(to, record, 2, &[("22A", 6), ("210", 11)]);
    text_cases(to, record, 3, 16, true);
    text_cases(to, record, 4, 20, false);
    text_cases(to, record, 5, 10, true);
    cases(to, record, 6, &[("CTX", 11), ("CCD", 0)]);
    text_cases(to, record, 7, 10, true);
    text_cases(to, record, 8, 6, false);
    cases(to, record, 9, &[("      ", 6), ("270229", 10), ("280229", 0)]);
    cases(to, record, 10, &[("320", 5)]);
    cases(to, record, 11, &[("0", 5)]);
    cases(to, record, 12, &[("3220703A", 6)]);
    cases(to, record, 13, &[("      1", 6), ("0000000", 17)]);
}

fn entry(to: &mut Collection) {
    let record = FIRST_ENTRY;
    let lists: [(u8, &[Case]); 11] = [
        (2, &[("2A", 6), ("25", 11), ("27", 15), ("28", 15), ("32", 0)]),
        (3, &[("4220703A", 6)]),
        (4, &[("A", 6), ("2", 12)]),
        (5, &[(" 12/3            ", 7), ("                 ", 8)]),
        (5, &[("12 3             ", 9), (" 123             ", 9)]),
        (5, &[("12-3             ", 0), ("-                ", 0), ("12345678901234567", 0)]),
        (5, &[("AZ-09            ", 0), ("Z                ", 0), ("ABCDEFGHIJKLMNOPQ", 0)]),
        (5, &[("AB 9             ", 9), (" AZ              ", 9), ("12a3             ", 7)]),
        (5, &[("A@               ", 7), ("[                ", 7), ("z                ", 7)]),
        (6, &[("      1000", 6), ("0000000000", 14)]),
        (10, &[("2", 11)]),
    ];
    for (field, list) in lists {
        cases(to, record, field, list);
    }
    text_cases(to, record, 7, 15, false);
    text_cases(to, record, 8, 22, true);
    text_cases(to, record, 9, 2, false);
    cases(to, record, 11, &[("32207038000000A", 6), ("322070380000000", 16)]);
    cases(to, record, 11, &[("322070390000001", 16)]);
    cases(to, SECOND_ENTRY, 11, &[("322070380000001", 16), ("322070380000000", 16)]);
}

fn addendum(to: &mut Collection) {
    let record = ADDENDUM;
    cases(to, record, 2, &[("06", 5)]);
    text_cases(to, record, 3, 80, false);
    cases(to, record, 4, &[("0002", 5)]);
    cases(to, record, 5, &[("     02", 6), ("0000001", 16)]);
}

fn batch_control(to: &mut Collection) {
    let record = BATCH_CONTROL;
    cases(to, record, 2, &[("225", 22)]);
    cases(to, record, 3, &[("     3", 6), ("000002", 18)]);
    // Hashed with the check digits; then the misprint of a source.
    cases(to, record, 4, &[("  64414076", 6), ("0644140762", 19), ("0064404066", 19)]);
    cases(to, record, 5, &[("           0", 6), ("000000012550", 21)]);
    cases(to, record, 6, &[("00000001255A", 6), ("000000012549", 21)]);
    cases(to, record, 7, &[("1123456780", 22)]);
    cases(to, record, 8, &[("                  0", 5)]);
    cases(to, record, 9, &[("0     ", 5)]);
    cases(to, record, 10, &[("32207039", 22)]);
    cases(to, record, 11, &[("0000002", 22)]);
}

fn file_control(to: &mut Collection) {
    let record = FILE_CONTROL;
    cases(to, record, 2, &[("     1", 6), ("000002", 18)]);
    cases(to, record, 3, &[("     1", 6), ("000000", 18)]);
    cases(to, record, 4, &[("       3", 6), ("00000002", 18)]);
    cases(to, record, 5, &[("  64414076", 6), ("0064414077", 19)]);
    cases(to, record, 6, &[("           0", 6), ("000000000001", 21)]);
    cases(to, record, 7, &[("       12550", 6), ("000000012551", 21)]);
    cases(to, record, 8, &[("                                      9", 5)]);
}
