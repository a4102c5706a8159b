//! The order of refusals: place before number, the lower number inside a field.

mod common;

use common::{verdict, Parts};
use generate::copies::{
    with_column, with_field, with_record_doubled, with_record_inserted, with_records_swapped,
    without_record,
};
use generate::{sample, Batch, Entry};
use independent::{check, Way};

fn refused(file: &[u8]) -> Parts {
    verdict(file).expect_err("a refusal is due")
}

fn whole() -> Vec<u8> {
    sample().file()
}

#[test]
fn lengths() {
    let whole = whole();
    for length in [0, 1, 93, 95, 939] {
        assert_eq!(refused(&whole[..length]), (1, 0, 0));
    }
    assert_eq!(refused(&[whole.as_slice(), b"\n"].concat()), (1, 0, 0));
}

#[test]
fn data_end_wherever_a_record_is_due() {
    let whole = whole();
    for records in 1..10 {
        let expected = (2, records as u64 + 1, 0);
        assert_eq!(refused(&whole[..records * 94]), expected);
    }
}

#[test]
fn a_fault_comes_before_the_end_of_the_data() {
    let cut = &whole()[..3 * 94];
    assert_eq!(refused(&with_field(cut, 3, 11, "999999990000001")), (16, 3, 11));
}

#[test]
fn types_out_of_place() {
    let whole = whole();
    assert_eq!(refused(&without_record(&whole, 1)), (3, 1, 1));
    assert_eq!(refused(&without_record(&whole, 2)), (3, 2, 1));
    assert_eq!(refused(&without_record(&whole, 5)), (3, 5, 1));
    assert_eq!(refused(&without_record(&whole, 6)), (3, 6, 1));
    assert_eq!(refused(&with_record_doubled(&whole, 1)), (3, 2, 1));
    assert_eq!(refused(&with_record_doubled(&whole, 5)), (3, 6, 1));
    assert_eq!(refused(&with_record_doubled(&whole, 6)), (3, 7, 1));
    assert_eq!(refused(&with_records_swapped(&whole, 3, 5)), (3, 3, 1));
    assert_eq!(refused(&with_column(&whole, 4, 1, b'4')), (3, 4, 1));
}

#[test]
fn an_empty_batch_and_a_file_without_one() {
    let mut plan = sample();
    plan.batches[0].entries.clear();
    assert_eq!(refused(&plan.file()), (3, 3, 1));
    plan.batches.clear();
    assert_eq!(refused(&plan.file()), (3, 2, 1));
}

#[test]
fn fillers() {
    let whole = whole();
    assert_eq!(refused(&with_column(&whole, 9, 1, b'5')), (5, 9, 0));
    assert_eq!(refused(&with_column(&whole, 9, 94, b' ')), (5, 9, 0));
    // A wrong filler comes before a missing one, and before a record too many.
    let wrong = with_column(&whole, 8, 50, b'8');
    assert_eq!(refused(&wrong[..9 * 94]), (5, 8, 0));
    assert_eq!(refused(&with_record_doubled(&wrong, 10)), (5, 8, 0));
    assert_eq!(refused(&with_record_inserted(&whole, 9, &[b'1'; 94])), (5, 9, 0));
    let behind = [whole.as_slice(), &whole[..94]].concat();
    assert_eq!(refused(&behind), (4, 11, 0));
}

#[test]
fn a_filler_after_a_batch_is_taken_for_the_file_control() {
    assert_eq!(refused(&without_record(&whole(), 7)), (18, 7, 2));
}

#[test]
fn the_lower_number_inside_a_field() {
    let whole = whole();
    for (record, field, text, number) in [
        (1, 3, "A32207038X", 5),
        (1, 3, " 32207038X", 6),
        (1, 3, " 322070382", 12),
        (1, 4, "X12345678X", 6),
        (1, 4, "X123456789", 11),
        (1, 5, "26131X", 6),
        (2, 2, "2X0", 6),
        (2, 2, "210", 11),
        (2, 3, " a              ", 7),
        (2, 3, "                ", 8),
        (2, 3, " LANTERN        ", 9),
        (2, 13, "000000X", 6),
        (2, 13, "0000000", 17),
        (3, 2, "2X", 6),
        (3, 2, "25", 11),
        (3, 2, "29", 15),
        (3, 2, "24", 28),
        (3, 2, "27", 15),
        (3, 3, "4220703X", 6),
        (3, 3, "42207038", 13),
        (3, 4, "X", 6),
        (3, 4, "2", 12),
        (3, 6, "000001000X", 6),
        (3, 6, "0000000000", 14),
        (3, 10, "X", 11),
        (3, 11, "99999999000000X", 6),
        (3, 11, "322070380000000", 16),
        (5, 5, "000000X", 6),
        (5, 5, "0000001", 16),
        (6, 2, "22X", 22),
        (6, 3, "00000X", 6),
        (6, 3, "000002", 18),
        (6, 4, "006441407X", 6),
        (6, 5, "00000000000X", 6),
        (6, 5, "000000000001", 21),
        (6, 8, "                  X", 5),
        (7, 2, "00000X", 6),
        (7, 3, "000002", 18),
        (7, 4, "00000002", 18),
        (7, 5, "0064414077", 19),
        (7, 7, "000000012549", 21),
    ] {
        let file = with_field(&whole, record, field, text);
        assert_eq!(refused(&file), (number, record as u64, field));
    }
}

#[test]
fn batch_numbers_ascend_and_traces_start_anew() {
    let mut plan = sample();
    let first = plan.batches[0].clone();
    let with_number = |number| Batch { number, ..first.clone() };
    plan.batches.push(with_number(5));
    assert!(check(Way::Plain, &plan.file()).is_ok());
    plan.batches.push(with_number(5));
    assert_eq!(refused(&plan.file()), (17, 12, 13));
    plan.batches[2].number = 4;
    assert_eq!(refused(&plan.file()), (17, 12, 13));
    plan.batches[2].number = 6;
    assert!(check(Way::Plain, &plan.file()).is_ok());
}

#[test]
fn nothing_follows_the_last_trace() {
    let mut plan = sample();
    plan.batches[0].entries[0].trace = 9_999_998;
    plan.batches[0].entries[1].trace = 9_999_999;
    assert!(check(Way::Plain, &plan.file()).is_ok());
    plan.batches[0].entries[0].trace = 9_999_999;
    plan.batches[0].entries[1].trace = 0;
    assert_eq!(refused(&plan.file()), (16, 4, 11));
}

#[test]
fn traces_rise_and_may_skip() {
    for (first, second, refusal) in [
        (1, 2, None),
        (1, 3, None),
        (1, 9_999_999, None),
        (5, 7, None),
        (7, 7, Some((16, 4, 11))),
        (7, 6, Some((16, 4, 11))),
        (7, 1, Some((16, 4, 11))),
        (9_999_999, 9_999_999, Some((16, 4, 11))),
        (0, 1, Some((16, 3, 11))),
    ] {
        let mut plan = sample();
        plan.batches[0].entries[0].trace = first;
        plan.batches[0].entries[1].trace = second;
        assert_eq!(verdict(&plan.file()), refusal.map_or(Ok(()), Err), "{first} {second}");
    }
}

/// The entry right before counts, and not the first one of the batch.
#[test]
fn a_trace_is_compared_with_the_one_before() {
    let mut plan = sample();
    let entry = plan.batches[0].entries[0].clone();
    for (third, refusal) in
        [(10, None), (9, Some((16, 5, 11))), (8, Some((16, 5, 11))), (4, Some((16, 5, 11)))]
    {
        let traces = [4, 9, third].into_iter();
        plan.batches[0].entries = traces.map(|trace| Entry { trace, ..entry.clone() }).collect();
        assert_eq!(verdict(&plan.file()), refusal.map_or(Ok(()), Err), "{third}");
    }
}

/// Equal to those of the batch before, lower, or higher: each batch has traces of its own.
#[test]
fn traces_are_not_compared_across_batches() {
    for (first, second) in [(41, 42), (1, 2), (41, 99), (1, 41), (9_999_998, 9_999_999)] {
        let mut plan = sample();
        plan.batches[0].entries[0].trace = 41;
        plan.batches[0].entries[1].trace = 42;
        let mut batch = Batch { number: 2, ..plan.batches[0].clone() };
        batch.entries[0].trace = first;
        batch.entries[1].trace = second;
        plan.batches.push(batch);
        assert_eq!(verdict(&plan.file()), Ok(()), "{first} {second}");
    }
}

#[test]
fn the_bank_of_a_trace_is_due_where_it_skips() {
    let mut plan = sample();
    plan.batches[0].entries[1].trace = 9;
    let file = plan.file();
    assert_eq!(refused(&with_field(&file, 4, 11, "322070390000009")), (16, 4, 11));
    assert_eq!(refused(&with_field(&file, 4, 11, "32207039000000X")), (6, 4, 11));
    // Its addendum repeats what stands there, and not what would have come next.
    assert_eq!(refused(&with_field(&file, 5, 5, "0000002")), (16, 5, 5));
}

/// Sets one column to every byte; those that pass are the ones named, the others have the number.
fn every_byte(record: usize, column: usize, refusal: Parts, passes: impl Fn(u8) -> bool) {
    for byte in 0..=255 {
        let file = with_column(&whole(), record, column, byte);
        if passes(byte) {
            assert!(check(Way::Plain, &file).is_ok(), "column {column}: {byte:#x}");
        } else {
            assert_eq!(refused(&file), refusal, "column {column}: {byte:#x}");
        }
    }
}

#[test]
fn text_takes_everything_printable_but_small_letters() {
    let is_text = |byte: u8| (0x20..=0x7E).contains(&byte) && !byte.is_ascii_lowercase();
    every_byte(1, 42, (7, 1, 11), is_text);
    every_byte(5, 83, (7, 5, 3), is_text);
}

#[test]
fn columns_with_rules_of_their_own() {
    every_byte(1, 14, (11, 1, 4), |byte| byte == b' ' || byte.is_ascii_digit());
    every_byte(1, 34, (11, 1, 7), |byte| byte.is_ascii_uppercase() || byte.is_ascii_digit());
    // The account's first sign, and its last; with a blank there it is a column shorter.
    let in_account = |byte: u8| byte == b'-' || byte.is_ascii_digit() || byte.is_ascii_uppercase();
    every_byte(3, 22, (7, 3, 5), |byte| byte == b' ' || in_account(byte));
    for byte in (0..=255).filter(|byte| *byte != b' ') {
        let expected = if in_account(byte) { Ok(()) } else { Err((7, 3, 5)) };
        assert_eq!(verdict(&with_column(&whole(), 3, 13, byte)), expected, "{byte:#x}");
    }
}

#[test]
fn the_addendum_column_for_every_byte() {
    for byte in 0..=255 {
        let expected = match byte {
            b'0' => continue,
            // Now an addendum is due, but the second entry stands there.
            b'1' => (3, 4, 1),
            _ => (11, 3, 10),
        };
        assert_eq!(refused(&with_column(&whole(), 3, 79, byte)), expected);
    }
}
