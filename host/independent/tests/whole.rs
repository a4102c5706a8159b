//! The sample file and its table, and random files against the plans they come from.

use generate::{is_credit, plan, sample, Plan, Random, CODES};
use independent::{check, read, write, Acceptance, Way};

const WHOLE_FILE: &[u8] = include_bytes!("../../../samples/whole.ach");
const WHOLE_TABLE: &[u8] = include_bytes!("../../../samples/whole.table");

#[test]
fn the_sample_is_accepted() {
    let mut by_code = [0; 24];
    by_code[..2].copy_from_slice(&[2, 12_550]);
    let expected =
        Acceptance { batches: 1, entries: 2, addenda: 1, debit: 0, credit: 12_550, by_code };
    assert_eq!(WHOLE_FILE.len(), 940);
    assert_eq!(check(Way::Plain, WHOLE_FILE), Ok(expected));
}

#[test]
fn the_sample_gives_its_table_and_the_table_the_sample() {
    assert_eq!(WHOLE_TABLE.len(), 470);
    assert_eq!(read(Way::Plain, WHOLE_FILE).as_deref(), Ok(WHOLE_TABLE));
    assert_eq!(write(Way::Plain, WHOLE_TABLE).as_deref(), Ok(WHOLE_FILE));
}

#[test]
fn the_generator_knows_the_sample() {
    assert_eq!(sample().file(), WHOLE_FILE);
    assert_eq!(sample().table(), WHOLE_TABLE);
}

#[test]
fn random_plans_are_accepted_with_what_they_hold() {
    let mut random = Random::new(1);
    for _ in 0..500 {
        let plan = plan(&mut random, 5, 9);
        let (file, table) = (plan.file(), plan.table());
        assert_eq!(check(Way::Plain, &file), Ok(contents(&plan)));
        assert_eq!(read(Way::Plain, &file), Ok(table.clone()));
        assert_eq!(write(Way::Plain, &table), Ok(file));
    }
}

/// The acceptance, counted from the plan.
fn contents(plan: &Plan) -> Acceptance {
    let mut contents = Acceptance { batches: plan.batches.len() as u64, ..Acceptance::default() };
    for entry in plan.batches.iter().flat_map(|batch| &batch.entries) {
        contents.entries += 1;
        contents.addenda += u64::from(entry.addendum.is_some());
        if is_credit(entry.code) {
            contents.credit += entry.amount;
        } else {
            contents.debit += entry.amount;
        }
        let rank = CODES.iter().position(|&code| code == entry.code).unwrap();
        contents.by_code[2 * rank] += 1;
        contents.by_code[2 * rank + 1] += entry.amount;
    }
    contents
}
