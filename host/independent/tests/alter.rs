//! Altering one amount, and asking for one addendum.

mod common;

use common::{alter, refused};
use generate::{is_payment, near_limit, plan, sample, Batch, Entry, Plan, Random};
use independent::{addendum, Way};

fn entries(plan: &mut Plan) -> impl Iterator<Item = &mut Entry> {
    plan.batches.iter_mut().flat_map(|batch| &mut batch.entries)
}

#[test]
fn an_altered_file_is_the_one_written_afresh() {
    let mut random = Random::new(2);
    for _ in 0..200 {
        let mut plan = plan(&mut random, 4, 6);
        let mut file = plan.file();
        for _ in 0..20 {
            let number = random.below(plan.entry_count());
            let entry = entries(&mut plan).nth(number).unwrap();
            if !is_payment(entry.code) {
                assert_eq!(alter(Way::Plain, &mut file, number as u64 + 1, 0), Ok(0));
                continue;
            }
            let amount = random.between(1, entry.amount);
            let difference = amount as i64 - entry.amount as i64;
            entry.amount = amount;
            assert_eq!(alter(Way::Plain, &mut file, number as u64 + 1, amount), Ok(difference));
            assert_eq!(file, plan.file());
        }
    }
}

#[test]
fn the_ends_of_the_difference() {
    let mut file = sample().file();
    alter(Way::Plain, &mut file, 1, 1).unwrap();
    assert_eq!(alter(Way::Plain, &mut file, 1, 9_999_999_999), Ok(9_999_999_998));
    assert_eq!(alter(Way::Plain, &mut file, 1, 1), Ok(-9_999_999_998));
}

#[test]
fn refusals_leave_the_file() {
    let file = sample().file();
    for (entry, amount, expected) in [
        (0, 1, (25, 0, 0)),
        (3, 1, (25, 0, 0)),
        (u64::MAX, 0, (25, 0, 0)),
        (1, 0, (14, 3, 6)),
        (2, 10_000_000_000, (14, 4, 6)),
        (2, u64::MAX, (14, 4, 6)),
    ] {
        let mut altered = file.clone();
        assert_eq!(refused(alter(Way::Plain, &mut altered, entry, amount)), expected);
        assert_eq!(altered, file);
    }
    assert_eq!(refused(alter(Way::Plain, &mut file[..94].to_vec(), 0, 0)), (2, 2, 0));
}

#[test]
fn a_prenote_takes_no_money() {
    let mut plan = sample();
    plan.batches[0].entries[0].code = 23;
    plan.batches[0].entries[0].amount = 0;
    let mut file = plan.file();
    assert_eq!(alter(Way::Plain, &mut file, 1, 0), Ok(0));
    assert_eq!(refused(alter(Way::Plain, &mut file, 1, 1)), (14, 3, 6));
}

#[test]
fn the_limit_is_tried_with_the_old_amount_taken_off() {
    for (code, batch_field, file_field) in [(32, 6, 7), (37, 5, 6)] {
        let mut in_one = near_limit(code, 999_999_999_999, 1).file();
        // Entry 101 has the 99 cents that are missing to the limit.
        assert_eq!(refused(alter(Way::Plain, &mut in_one, 101, 100)), (20, 104, batch_field));
        assert_eq!(alter(Way::Plain, &mut in_one, 101, 98), Ok(-1));
        assert_eq!(alter(Way::Plain, &mut in_one, 101, 99), Ok(1));
        let mut in_two = near_limit(code, 999_999_999_999, 2).file();
        assert_eq!(refused(alter(Way::Plain, &mut in_two, 101, 100)), (20, 107, file_field));
    }
}

#[test]
fn the_addendum_of_an_entry() {
    let file = sample().file();
    assert_eq!(addendum(Way::Plain, &file, 1), Ok((0, 0)));
    assert_eq!(addendum(Way::Plain, &file, 2), Ok((4 * 94 + 3, 80)));
    assert!(file[4 * 94 + 3..].starts_with(b"REIMBURSEMENT"));
    for entry in [0, 3, u64::MAX] {
        assert_eq!(refused(addendum(Way::Plain, &file, entry)), (25, 0, 0));
    }
    assert_eq!(refused(addendum(Way::Plain, &file[..94], 0)), (2, 2, 0));
}

#[test]
fn entries_count_through_the_batches() {
    let mut plan = sample();
    let second = Batch { number: 2, ..plan.batches[0].clone() };
    plan.batches.push(second);
    let mut file = plan.file();
    // Its record 7 is the tenth of the file.
    assert_eq!(addendum(Way::Plain, &file, 4), Ok((9 * 94 + 3, 80)));
    plan.batches[1].entries[0].amount = 7;
    assert_eq!(alter(Way::Plain, &mut file, 3, 7), Ok(7 - 10_000));
    assert_eq!(file, plan.file());
}
