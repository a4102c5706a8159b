//! Zero-dollar remittances: where they may stand, what they carry, and what comes before what.

mod common;

use common::{alter, parts, take_out, Parts};
use generate::copies::{with_field, without_record};
use generate::damage::random_damage;
use generate::lists::rows_of;
use generate::remittances::{
    in_ccd, of_code, with_entry_class, with_prenotes_for_remittances, without_addendum, REMITTANCES,
};
use generate::seal::resealed;
use generate::{is_credit, is_remittance, plan, sample, Batch, Entry, Random, CODES};
use independent::{addendum, check, export, import, read, write, Way};
use std::collections::BTreeMap;

/// The verdict, which is the same in both ways.
fn verdict(file: &[u8]) -> Result<(), Parts> {
    let twin = generate::lines::lined(file);
    let [plain, lined] =
        [check(Way::Plain, file), check(Way::Lined, &twin)].map(|held| held.map_err(parts));
    assert_eq!(plain, lined);
    plain.map(|_| ())
}

/// The class that takes the side of the code alone.
fn class_of(code: u32) -> u32 {
    if is_credit(code) {
        220
    } else {
        225
    }
}

/// All that field 2, 6 and 10 of an entry may be, in a batch of each kind: what is refused follows
/// from the sentences of the request, one after the other.
#[test]
fn every_code_everywhere() {
    for (class, entry_class) in
        [200, 220, 225].into_iter().flat_map(|class| [(class, "PPD"), (class, "CCD")])
    {
        for (code, amount) in
            (0..100).flat_map(|code| [(code, 0), (code, 1), (code, 9_999_999_999)])
        {
            for with_addendum in [false, true] {
                let mut plan = in_ccd(class, &[code]);
                plan.batches[0].entry_class = entry_class.into();
                let entry = &mut plan.batches[0].entries[0];
                entry.amount = amount;
                entry.addendum = entry.addendum.take().filter(|_| with_addendum);
                let expected = due(class, entry_class, code, amount, with_addendum);
                assert_eq!(verdict(&plan.file()), expected, "{class} {entry_class} {code}");
                let table = write(Way::Plain, &plan.table()).map(|_| ()).map_err(parts);
                assert_eq!(table, expected);
            }
        }
    }
}

fn due(
    class: u32,
    entry_class: &str,
    code: u32,
    amount: u64,
    with_addendum: bool,
) -> Result<(), Parts> {
    let wrong_side = class != 200 && class != class_of(code);
    let remits = [24, 29, 34, 39].contains(&code);
    let pays = [22, 27, 32, 37].contains(&code);
    match code {
        _ if !CODES.contains(&code) => Err((11, 3, 2)),
        _ if wrong_side => Err((15, 3, 2)),
        _ if remits && entry_class == "PPD" => Err((28, 3, 2)),
        _ if pays == (amount == 0) => Err((14, 3, 6)),
        _ if remits && !with_addendum => Err((28, 3, 10)),
        _ => Ok(()),
    }
}

#[test]
fn all_twelve_codes_have_their_rows() {
    let mut plan = in_ccd(200, &CODES);
    for (entry, cents) in plan.batches[0].entries.iter_mut().zip(1..) {
        entry.amount *= cents;
    }
    // The same once more, of the last code twice.
    let mut second = Batch { number: 2, ..plan.batches[0].clone() };
    second.entries = vec![of_code(39, second.entries[0].clone()); 2];
    second.entries[1].trace = 2;
    plan.batches.push(second);
    let held = check(Way::Plain, &plan.file()).unwrap();
    let rows: Vec<(u64, u64)> = held.by_code.chunks_exact(2).map(|row| (row[0], row[1])).collect();
    let cents = 2_550;
    assert_eq!(
        rows,
        [
            (1, cents),
            (1, 0),
            (1, 0),
            (1, 4 * cents),
            (1, 0),
            (1, 0),
            (1, 7 * cents),
            (1, 0),
            (1, 0),
            (1, 10 * cents),
            (1, 0),
            (3, 0),
        ]
    );
    assert_eq!((held.debit, held.credit), (14 * cents, 8 * cents));
    assert_eq!((held.batches, held.entries, held.addenda), (2, 14, 14));
}

/// Field 2: 6, 11, 15, 28; and 28 there before everything behind it.
#[test]
fn the_order_in_the_code() {
    let mut plan = in_ccd(220, &[24]);
    plan.batches[0].entry_class = "PPD".into();
    let file = plan.file();
    for (field, text) in [(3, "42207038"), (4, "2"), (6, "0000000001"), (10, "0"), (10, "2")] {
        assert_eq!(verdict(&with_field(&file, 3, field, text)), Err((28, 3, 2)), "{field}");
    }
    for (code, number) in [("2A", 6), ("25", 11), ("29", 15), ("34", 28)] {
        assert_eq!(verdict(&with_field(&file, 3, 2, code)), Err((number, 3, 2)));
    }
    assert_eq!(verdict(&without_addendum(&file, 3)), Err((28, 3, 2)));
}

/// Field 10: 11, 28; the fields before it first, and 28 there before what comes behind.
#[test]
fn the_order_in_the_flag() {
    for code in REMITTANCES {
        let file = in_ccd(class_of(code), &[code]).file();
        assert_eq!(verdict(&file), Ok(()));
        let bare = without_addendum(&file, 3);
        assert_eq!(verdict(&bare), Err((28, 3, 10)));
        // The addendum that is there all the same comes later.
        assert_eq!(verdict(&with_field(&file, 3, 10, "0")), Err((28, 3, 10)));
        for byte in (0..=255).filter(|byte| *byte != b'0' && *byte != b'1') {
            assert_eq!(verdict(&with_field(&file, 3, 10, [byte])), Err((11, 3, 10)));
        }
        for (field, text, number) in [
            (2, "2A", 6),
            (6, "0000000001", 14),
            (6, "9999999999", 14),
            (6, "         0", 6),
            (8, "                      ", 8),
            (9, " X", 9),
        ] {
            assert_eq!(verdict(&with_field(&bare, 3, field, text)), Err((number, 3, field)));
        }
        assert_eq!(verdict(&with_field(&bare, 3, 11, "322070380000000")), Err((28, 3, 10)));
        assert_eq!(verdict(&without_record(&file, 4)), Err((3, 4, 1)));
    }
}

/// The text of the addendum is optional, as it is everywhere.
#[test]
fn an_addendum_without_text() {
    let mut plan = in_ccd(200, &REMITTANCES);
    for entry in &mut plan.batches[0].entries {
        entry.addendum = Some(String::new());
    }
    assert_eq!(verdict(&plan.file()), Ok(()));
}

/// The entry class is that of the batch which the entry stands in.
#[test]
fn each_batch_has_its_own_entry_class() {
    let mut plan = in_ccd(200, &REMITTANCES);
    let ppd = Batch { number: 2, ..sample().batches.remove(0) };
    let ccd = Batch { number: 3, ..plan.batches[0].clone() };
    plan.batches.extend([ppd, ccd]);
    let file = plan.file();
    assert_eq!(verdict(&file), Ok(()));
    // Header, batch header, four entries with addenda, control; the second batch has record 12, 13.
    let second = with_field(&with_field(&file, 13, 2, "24"), 13, 6, "0000000000");
    assert_eq!(verdict(&resealed(&second)), Err((28, 13, 2)));
    assert_eq!(verdict(&resealed(&with_entry_class(&second, 13, "CCD"))), Err((28, 13, 10)));
    assert_eq!(verdict(&with_entry_class(&file, 18, "PPD")), Err((28, 18, 2)));
}

#[test]
fn only_nothing_is_taken_for_a_remittance() {
    for code in REMITTANCES {
        let plan = in_ccd(200, &[22, code]);
        for (way, file) in [(Way::Plain, plan.file()), (Way::Lined, plan.lined_file())] {
            let mut altered = file.clone();
            assert_eq!(alter(way, &mut altered, 2, 0), Ok(0));
            assert_eq!(altered, file);
            for amount in [1, 2_550, 9_999_999_999, 10_000_000_000, 1 << 32, u64::MAX] {
                assert_eq!(alter(way, &mut altered, 2, amount).map_err(parts), Err((14, 5, 6)));
            }
            assert_eq!(altered, file);
            // What is altered beside it leaves it.
            assert_eq!(alter(way, &mut altered, 1, 1), Ok(1 - 2_550));
            assert_eq!(check(way, &altered).unwrap().credit, 1);
            let text = addendum(way, &file, 2).unwrap();
            assert_eq!(text, (5 * way.record_length() + 3, 80));
        }
    }
}

#[test]
fn remittances_are_taken_out_with_their_addenda() {
    let plan = in_ccd(200, &[22, 24, 29, 37, 39]);
    let mut file = plan.file();
    let length = take_out(Way::Plain, &mut file, &[5, 2, 3]).unwrap();
    assert_eq!(file[..length], plan.without(&[2, 3, 5]).file());
    // Nothing but remittances may be left.
    let mut file = plan.file();
    let length = take_out(Way::Plain, &mut file, &[1, 4]).unwrap();
    let held = check(Way::Plain, &file[..length]).unwrap();
    assert_eq!((held.entries, held.addenda, held.debit, held.credit), (3, 3, 0, 0));
}

/// A line has no addendum, so it is refused under either row.
#[test]
fn a_list_has_no_remittances() {
    let good = b"22,322070381,1,1.00,,A\r\n".as_slice();
    for (entry_class, field) in [("PPD", 2), ("CCD", 10)] {
        let mut plan = in_ccd(200, &[22]);
        plan.batches[0].entry_class = entry_class.into();
        let (file_row, batch_row) = rows_of(&plan, 0);
        let refused = |lines: &[u8]| import(&file_row, &batch_row, lines).map_err(parts);
        for code in REMITTANCES {
            let [nothing, cent] =
                ["0.00", "0.01"].map(|amount| format!("{code},322070381,1,{amount},,A\r\n"));
            assert_eq!(refused(nothing.as_bytes()), Err((28, 3, field)));
            let second = [good, nothing.as_bytes(), b"22,A"].concat();
            assert_eq!(refused(&second), Err((29, 3, 0)));
            let second = [good, nothing.as_bytes(), good].concat();
            assert_eq!(refused(&second), Err((28, 4, field)));
            let expected = if field == 2 { (28, 3, 2) } else { (14, 3, 6) };
            assert_eq!(refused(cent.as_bytes()), Err(expected));
        }
        assert!(refused(good).is_ok());
    }
}

/// An export has the lines of remittances; imported, the first of them is refused.
#[test]
fn what_is_exported_of_remittances() {
    let mut random = Random::new(70);
    for _ in 0..300 {
        let plan = plan(&mut random, 3, 5);
        let entries: Vec<&Entry> = plan.batches.iter().flat_map(|batch| &batch.entries).collect();
        let lines = export(&plan.table()).unwrap();
        assert_eq!(lines.split(|byte| *byte == b'\n').count(), entries.len() + 1);
        let first = entries.iter().position(|entry| is_remittance(entry.code));
        for (entry_class, field) in [("PPD", 2), ("CCD", 10)] {
            let mut rows = in_ccd(200, &[22]);
            rows.batches[0].entry_class = entry_class.into();
            let (file_row, batch_row) = rows_of(&rows, 0);
            let given = import(&file_row, &batch_row, &lines).map(|_| ()).map_err(parts);
            assert_eq!(given, first.map_or(Ok(()), |line| Err((28, line as u64 + 3, field))));
        }
    }
}

/// Random plans have remittances of every code, and damage shows each ground of their refusal.
#[test]
fn the_generator_gives_them() {
    let mut random = Random::new(71);
    let mut codes: BTreeMap<u32, usize> = BTreeMap::new();
    let mut refusals: BTreeMap<(u8, u8), usize> = BTreeMap::new();
    for _ in 0..2_000 {
        let plan = plan(&mut random, 3, 5);
        for entry in plan.batches.iter().flat_map(|batch| &batch.entries) {
            *codes.entry(entry.code).or_default() += 1;
        }
        assert_eq!(verdict(&plan.file()), Ok(()));
        assert_eq!(read(Way::Plain, &plan.file()), Ok(plan.table()));
        let damaged = resealed(&random_damage(&mut random, &plan.file()));
        if let Err((number, _, field)) = verdict(&damaged) {
            *refusals.entry((number, field)).or_default() += 1;
        }
        let listed = with_prenotes_for_remittances(plan);
        assert_eq!(verdict(&listed.file()), Ok(()));
        let mut entries = listed.batches.iter().flat_map(|batch| &batch.entries);
        assert!(entries.all(|entry| !is_remittance(entry.code)));
    }
    assert!(CODES.iter().all(|code| codes[code] > 200), "{codes:?}");
    for ground in [(28, 2), (28, 10), (14, 6)] {
        assert!(refusals[&ground] > 10, "{refusals:?}");
    }
}

/// The eight codes that were known before need no addendum, and stand in both entry classes.
#[test]
fn payments_and_prenotes_are_as_before() {
    let mut plan = sample();
    let model = plan.batches[0].entries.remove(0);
    let codes = [22, 23, 27, 28, 32, 33, 37, 38];
    plan.batches[0].class = 200;
    let entries = codes.iter().zip(1..);
    plan.batches[0].entries =
        entries.map(|(&code, trace)| Entry { trace, ..of_code(code, model.clone()) }).collect();
    for entry_class in ["PPD", "CCD"] {
        plan.batches[0].entry_class = entry_class.into();
        let held = check(Way::Plain, &plan.file()).unwrap();
        assert_eq!((held.entries, held.addenda), (8, 0));
        assert_eq!((held.debit, held.credit), (20_000, 20_000));
    }
}
