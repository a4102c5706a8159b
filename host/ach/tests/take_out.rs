//! Taking entries out through the safe function: what is left, the blanks, and the refusals.

mod common;

use ach::{Refusal, Way};
use common::{in_both_ways, GAPS, GAPS_IN_BOTH_WAYS, GAPS_LINED, RECALLED};
use generate::recalls::random_recall;
use generate::tables::without_entries;
use generate::{plan, Random};

#[test]
fn four_payments_are_recalled() {
    for (way, lent, rest) in [
        (Way::Plain, GAPS, RECALLED.to_vec()),
        (Way::Lined, GAPS_LINED, generate::lines::lined(RECALLED)),
    ] {
        let mut file = lent.to_vec();
        let mut rows = [7; 4];
        let length = ach::take_out(way, &mut file, &[2, 3, 5, 6], &mut rows).unwrap();
        assert_eq!(file[..length], rest);
        assert!(file[length..].iter().all(|byte| *byte == b' '));
        assert_eq!(rows, [5, 329_610, 7, 7]);
        let held = ach::check(way, &rest).unwrap();
        assert_eq!((held.batches, held.entries, held.credit), (1, 2, 329_610));
    }
}

#[test]
fn a_list_of_none_changes_nothing() {
    let mut file = GAPS.to_vec();
    let mut rows = [0; 4];
    assert_eq!(ach::take_out(Way::Plain, &mut file, &[], &mut rows), Ok(GAPS.len()));
    assert_eq!(file, GAPS);
    assert_eq!(Ok(rows.to_vec()), ach::rows_of(Way::Plain, GAPS));
}

/// The list is longer than the file, and it is only read.
#[test]
fn order_and_repeats_do_not_matter() {
    let list = [6, 3, 5, 2].repeat(1_000);
    let mut file = GAPS.to_vec();
    assert_eq!(ach::take_out(Way::Plain, &mut file, &list, &mut [0; 2]), Ok(RECALLED.len()));
    assert_eq!(&file[..RECALLED.len()], RECALLED);
    assert_eq!(list, [6, 3, 5, 2].repeat(1_000));
}

#[test]
fn a_refusal_leaves_the_file() {
    for (list, number) in [
        (&[0][..], 25),
        (&[7], 25),
        (&[u64::MAX], 25),
        (&[1 << 32 | 1], 25),
        (&[1, 2, 7, 3], 25),
        (&[1, 2, 3, 4, 5, 6], 27),
        (&[6, 5, 4, 3, 2, 1, 1], 27),
        // The bad number comes first, wherever it stands.
        (&[1, 2, 3, 4, 5, 6, 0], 25),
    ] {
        for (way, lent) in GAPS_IN_BOTH_WAYS {
            let mut file = lent.to_vec();
            let refusal = Refusal::without_place(number);
            assert_eq!(ach::take_out(way, &mut file, list, &mut []), Err(refusal), "{list:?}");
            assert_eq!(file, lent);
        }
    }
}

#[test]
fn the_files_own_refusal_comes_first() {
    for list in [&[][..], &[0], &[1], &[1, 2, 3, 4, 5, 6]] {
        for (way, lent, expected) in [
            (Way::Plain, b"".as_slice(), Refusal::without_place(1)),
            (Way::Plain, GAPS_LINED, Refusal::without_place(1)),
            (Way::Plain, &GAPS[..94], Refusal { number: 2, record: 2, field: 0 }),
        ] {
            let mut file = lent.to_vec();
            assert_eq!(ach::take_out(way, &mut file, list, &mut []), Err(expected));
            assert_eq!(file, lent);
        }
    }
}

/// The result is the file written from the table without those rows.
#[test]
fn it_is_the_file_of_the_table_without_the_rows() {
    let mut random = Random::new(6);
    let mut granted = 0;
    for _ in 0..300 {
        let plan = plan(&mut random, 4, 6);
        let list = random_recall(&mut random, &plan);
        for (way, mut file) in in_both_ways(&plan.file()) {
            let table = ach::table_of(way, &file).unwrap();
            let mut rows = ach::rows_of(way, &file).unwrap();
            if let Ok(length) = ach::take_out(way, &mut file, &list, &mut rows) {
                let rest = without_entries(&table, &list);
                assert_eq!(ach::file_of(way, &rest).as_deref(), Ok(&file[..length]));
                assert_eq!(ach::table_of(way, &file[..length]), Ok(rest));
                assert!(rows.starts_with(&ach::rows_of(way, &file[..length]).unwrap()));
                granted += 1;
            }
        }
    }
    assert!(granted > 300, "{granted}");
}

#[test]
fn a_refusal_speaks() {
    let all = [1, 2, 3, 4, 5, 6];
    let refusal = ach::take_out(Way::Plain, &mut GAPS.to_vec(), &all, &mut []).unwrap_err();
    assert_eq!(refusal.to_string(), "refusal 27: no entry would be left");
}
