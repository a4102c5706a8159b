//! Both sides of each edge that the scope paper names.

mod common;

use common::{alter, verdict};
use generate::copies::with_field;
use generate::seal::resealed;
use generate::{near_limit, sample, Entry, Plan};
use independent::{write, Way};

/// The sample with some entries in place of its own.
fn with_entries(count: usize, entry: Entry) -> Plan {
    let mut plan = sample();
    plan.batches[0].class = 200;
    plan.batches[0].entries =
        (1..=count as u32).map(|trace| Entry { trace, ..entry.clone() }).collect();
    plan
}

fn entry() -> Entry {
    sample().batches[0].entries[0].clone()
}

/// The text of a field of the file control.
fn of_control(plan: &Plan, field: std::ops::Range<usize>) -> String {
    let file = plan.file();
    let control = file.chunks(94).find(|record| record[0] == b'9').unwrap();
    String::from_utf8(control[field].to_vec()).unwrap()
}

#[test]
fn check_digits() {
    let sample = sample().file();
    for (routing, right) in [("05300021", '9'), ("32207038", '1'), ("02130264", '8')] {
        let with_routing = resealed(&with_field(&sample, 3, 3, routing));
        for digit in '0'..='9' {
            let file = with_field(&with_routing, 3, 4, digit.to_string());
            let expected = if digit == right { Ok(()) } else { Err((12, 3, 4)) };
            assert_eq!(verdict(&file), expected);
        }
    }
}

#[test]
fn hashes() {
    let at = |count, routing| with_entries(count, Entry { routing, ..entry() });
    for (plan, hash) in [
        (at(5, 5_300_021), "0026500105"),
        (at(2, 32_207_038), "0064414076"),
        (at(250, 39_999_999), "9999999750"),
    ] {
        assert_eq!(of_control(&plan, 21..31), hash);
        assert_eq!(verdict(&plan.file()), Ok(()));
    }
    let wrong = with_field(&sample().file(), 6, 4, "0064404066");
    assert_eq!(verdict(&wrong), Err((19, 6, 4)));
}

#[test]
fn a_hash_over_ten_digits_is_cut() {
    let mut plan = with_entries(251, Entry { routing: 39_999_999, ..entry() });
    plan.batches[0].entries[250].routing = 249;
    assert_eq!(of_control(&plan, 21..31), "9999999999");
    assert_eq!(verdict(&plan.file()), Ok(()));
    plan.batches[0].entries[250].routing = 250;
    assert_eq!(of_control(&plan, 21..31), "0000000000");
    assert_eq!(verdict(&plan.file()), Ok(()));
}

#[test]
fn dates_and_times() {
    let sample = sample().file();
    for (date, real) in [
        ("000229", true),
        ("010229", false),
        ("991231", true),
        ("990431", false),
        ("260001", false),
        ("261301", false),
        ("260100", false),
    ] {
        let in_header = verdict(&with_field(&sample, 1, 5, date));
        let in_batch = verdict(&with_field(&sample, 2, 9, date));
        assert_eq!(in_header, if real { Ok(()) } else { Err((10, 1, 5)) });
        assert_eq!(in_batch, if real { Ok(()) } else { Err((10, 2, 9)) });
    }
    for (time, expected) in [
        ("2359", Ok(())),
        ("0000", Ok(())),
        ("    ", Ok(())),
        ("2400", Err((10, 1, 6))),
        ("2360", Err((10, 1, 6))),
        ("12  ", Err((6, 1, 6))),
    ] {
        assert_eq!(verdict(&with_field(&sample, 1, 6, time)), expected);
    }
}

#[test]
fn amounts_by_code() {
    for (code, amount, passes) in [
        (22, 0, false),
        (22, 1, true),
        (22, 9_999_999_999, true),
        (23, 0, true),
        (23, 1, false),
        (28, 0, true),
        (28, 1, false),
        (27, 0, false),
        (37, 1, true),
        (33, 0, true),
        (38, 1, false),
    ] {
        let entry = Entry { code, amount, ..entry() };
        let expected = if passes { Ok(()) } else { Err((14, 3, 6)) };
        assert_eq!(verdict(&with_entries(1, entry).file()), expected);
    }
}

#[test]
fn accounts() {
    let sample = sample().file();
    for (account, expected) in [
        ("12-3             ", Ok(())),
        ("-----------------", Ok(())),
        ("12345678901234567", Ok(())),
        ("12 3             ", Err((9, 3, 5))),
        (" 123             ", Err((9, 3, 5))),
        ("                 ", Err((8, 3, 5))),
        ("12A3             ", Ok(())),
        ("A                ", Ok(())),
        ("ABCDEFGHIJKLMNOPQ", Ok(())),
        ("RSTUVWXYZ-0123456", Ok(())),
        ("Z-               ", Ok(())),
        (" 12A3            ", Err((9, 3, 5))),
        ("AB 3             ", Err((9, 3, 5))),
        ("1               A", Err((9, 3, 5))),
        ("12a3             ", Err((7, 3, 5))),
        (" 12a3            ", Err((7, 3, 5))),
        ("abc              ", Err((7, 3, 5))),
        ("12_3             ", Err((7, 3, 5))),
        ("12.3             ", Err((7, 3, 5))),
    ] {
        assert_eq!(verdict(&with_field(&sample, 3, 5, account)), expected);
    }
}

#[test]
fn totals_at_the_limit() {
    for (code, batch_field, file_field) in [(22, 6, 7), (27, 5, 6)] {
        assert_eq!(verdict(&near_limit(code, 999_999_999_900, 1).file()), Ok(()));
        assert_eq!(verdict(&near_limit(code, 999_999_999_999, 1).file()), Ok(()));
        assert_eq!(verdict(&near_limit(code, 999_999_999_999, 2).file()), Ok(()));
        for too_much in [1_000_000_000_000, 1_009_999_999_899] {
            let in_one = near_limit(code, too_much, 1).file();
            assert_eq!(verdict(&in_one), Err((20, 104, batch_field)));
            let in_two = near_limit(code, too_much, 2).file();
            assert_eq!(verdict(&in_two), Err((20, 107, file_field)));
        }
    }
}

#[test]
fn the_same_limit_when_written() {
    let fits = near_limit(22, 999_999_999_900, 1);
    assert_eq!(write(Way::Plain, &fits.table()), Ok(fits.file()));
    let too_much = near_limit(22, 1_009_999_999_899, 1);
    let refusal = write(Way::Plain, &too_much.table()).unwrap_err();
    assert_eq!((refusal.number, refusal.record, refusal.field), (20, 104, 6));
}

#[test]
fn fillers_complete_the_block() {
    for (entries, records, fillers) in [(3, 7, 3), (6, 10, 0), (7, 11, 9)] {
        let file = with_entries(entries, entry()).file();
        assert_eq!(file.len() / 94, records + fillers);
        assert_eq!(verdict(&file), Ok(()));
        let one_more = [file.as_slice(), &[b'9'; 94]].concat();
        let behind = (records + fillers + 1) as u64;
        assert_eq!(verdict(&one_more), Err((4, behind, 0)));
        if fillers > 0 {
            let one_less = &file[..file.len() - 94];
            assert_eq!(verdict(one_less), Err((2, behind - 1, 0)));
        }
    }
}

#[test]
fn the_empty_input_and_the_first_record_alone() {
    assert_eq!(verdict(b""), Err((1, 0, 0)));
    assert_eq!(verdict(&sample().file()[..94]), Err((2, 2, 0)));
}

#[test]
fn altering_to_the_same_amount_changes_nothing() {
    let file = sample().file();
    let mut altered = file.clone();
    assert_eq!(alter(Way::Plain, &mut altered, 2, 2_550), Ok(0));
    assert_eq!(altered, file);
}

#[test]
fn the_longest_file() {
    assert_eq!(verdict(&[b' '; 94]), Err((3, 1, 1)));
    let blank = vec![b' '; 94_000_094];
    assert_eq!(verdict(&blank), Err((1, 0, 0)));
    assert_eq!(verdict(&blank[..94_000_000]), Err((3, 1, 1)));
}
