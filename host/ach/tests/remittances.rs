//! Zero-dollar remittances through the safe functions: their rows, both grounds of 28, and what may
//! not be made of them.

mod common;

use ach::{Refusal, Way};
use common::in_both_ways;
use generate::copies::with_field;
use generate::lists::rows_of;
use generate::remittances::{in_ccd, with_entry_class, without_addendum, REMITTANCES};
use generate::seal::resealed;

const FILE: &[u8] = include_bytes!("../../../samples/remittances.ach");
const BARE: &[u8] = include_bytes!("../../../samples/refused/remittance-bare.ach");
const PPD: &[u8] = include_bytes!("../../../samples/refused/remittance-ppd.ach");

#[test]
fn the_sample_and_its_rows() {
    for (way, file) in in_both_ways(FILE) {
        let held = ach::check(way, &file).unwrap();
        assert_eq!((held.batches, held.entries, held.addenda), (1, 7, 6));
        assert_eq!((held.debit, held.credit), (0, 124_000));
        let rows: Vec<(u8, u64, u64)> = ach::CODES
            .iter()
            .zip(held.by_code.chunks_exact(2))
            .filter(|(_, row)| row[0] > 0)
            .map(|(code, row)| (*code, row[0], row[1]))
            .collect();
        let expected =
            [(22, 1, 124_000), (23, 1, 0), (24, 2, 0), (29, 1, 0), (34, 1, 0), (39, 1, 0)];
        assert_eq!(rows, expected);
    }
}

#[test]
fn both_grounds_of_the_refusal() {
    for (file, field) in [(PPD, 2), (BARE, 10)] {
        for (way, mut file) in in_both_ways(file) {
            let refusal = Refusal { number: 28, record: 5, field };
            assert_eq!(ach::check(way, &file), Err(refusal));
            assert_eq!(ach::table_of(way, &file), Err(refusal));
            assert_eq!(ach::alter(way, &mut file, &mut [], 1, 1), Err(refusal));
            assert_eq!(ach::take_out(way, &mut file, &[2], &mut []), Err(refusal));
        }
    }
}

/// The table's row decides when a file is written, too.
#[test]
fn writing_refuses_them_alike() {
    for code in REMITTANCES {
        let mut plan = in_ccd(200, &[22, code]);
        assert_eq!(ach::file_of(Way::Plain, &plan.table()), Ok(plan.file()));
        plan.batches[0].entries[1].addendum = None;
        let refusal = Refusal { number: 28, record: 5, field: 10 };
        assert_eq!(ach::file_of(Way::Plain, &plan.table()), Err(refusal));
        assert_eq!(ach::export(&plan.table()), Err(refusal));
        plan.batches[0].entry_class = "PPD".into();
        let refusal = Refusal { field: 2, ..refusal };
        assert_eq!(ach::file_of(Way::Lined, &plan.table()), Err(refusal));
    }
}

#[test]
fn the_order_of_the_numbers() {
    let file = in_ccd(220, &[24]).file();
    let ppd = with_entry_class(&file, 3, "PPD");
    let bare = without_addendum(&file, 3);
    for (file, field, text, expected) in [
        (&ppd, 2, "2A", (6, 2)),
        (&ppd, 2, "25", (11, 2)),
        (&ppd, 2, "29", (15, 2)),
        (&ppd, 2, "34", (28, 2)),
        (&ppd, 6, "0000000001", (28, 2)),
        (&bare, 6, "0000000001", (14, 6)),
        (&bare, 10, "2", (11, 10)),
        (&bare, 10, "0", (28, 10)),
        (&bare, 11, "322070380000000", (28, 10)),
    ] {
        let refusal = ach::check(Way::Plain, &resealed(&with_field(file, 3, field, text)));
        let refusal = refusal.unwrap_err();
        assert_eq!((refusal.number, refusal.field), expected, "{text}");
    }
}

#[test]
fn only_nothing_is_taken_for_a_remittance() {
    for (way, file) in in_both_ways(FILE) {
        for entry in [2, 3, 4, 5, 6] {
            let mut altered = file.clone();
            let mut rows = ach::rows_of(way, &file).unwrap();
            for amount in [1, 9_999_999_999, u64::MAX] {
                let refusal = Refusal { number: 14, record: 1 + 2 * entry, field: 6 };
                assert_eq!(ach::alter(way, &mut altered, &mut rows, entry, amount), Err(refusal));
            }
            assert_eq!(ach::alter(way, &mut altered, &mut rows, entry, 0), Ok(0));
            assert_eq!(altered, file);
            assert_eq!(ach::addendum(way, &file, entry).map(<[u8]>::len), Ok(80));
        }
    }
}

#[test]
fn a_list_has_no_remittances() {
    for (entry_class, field) in [("PPD", 2), ("CCD", 10)] {
        let mut plan = in_ccd(200, &[22]);
        plan.batches[0].entry_class = entry_class.into();
        let (file_row, batch_row) = rows_of(&plan, 0);
        for code in REMITTANCES {
            let lines = format!("22,322070381,7,0.01,,A\r\n{code},322070381,7,0.00,,A\r\n");
            let refusal = Refusal { number: 28, record: 4, field };
            assert_eq!(ach::import(&file_row, &batch_row, lines.as_bytes()), Err(refusal));
        }
    }
}

#[test]
fn a_refusal_speaks() {
    let refusal = ach::check(Way::Plain, BARE).unwrap_err().to_string();
    let words = "a zero-dollar remittance stands in a PPD batch or has no addendum";
    assert_eq!(refusal, format!("refusal 28: {words} (record 5, field 10)"));
}
