//! Taking entries out: the file that is left, its blanks, and the refusals.

mod common;

use common::{in_way, parts, take_out, with_batches, Parts};
use generate::lines::with_end;
use generate::recalls::{random_recall, NO_ENTRIES};
use generate::tables::without_entries;
use generate::{near_limit, plan, sample, Entry, Plan, Random};
use independent::{check, read, write, Way};

/// What is left of the plan's file, in both ways, is that of the plan without the entries, and then
/// blanks.
#[track_caller]
fn leaves(plan: &Plan, entries: &[u64], rest: &Plan) {
    for way in Way::BOTH {
        let mut file = in_way(way, &plan.file());
        let length = take_out(way, &mut file, entries).expect("an entry is left");
        assert_eq!(file[..length], in_way(way, &rest.file()));
        assert!(file[length..].iter().all(|byte| *byte == b' '));
    }
}

/// The list is refused so, in both ways, and the file stays.
#[track_caller]
fn refuses(plan: &Plan, entries: &[u64], expected: Parts) {
    for way in Way::BOTH {
        let mut file = in_way(way, &plan.file());
        assert_eq!(take_out(way, &mut file, entries).map_err(parts), Err(expected));
        assert_eq!(file, in_way(way, &plan.file()));
    }
}

/// Worked out by hand: the second of two entries goes, and with it its addendum.
#[test]
fn the_sample_without_its_second_entry() {
    let whole = sample().file();
    let mut file = whole.clone();
    assert_eq!(take_out(Way::Plain, &mut file, &[2]), Ok(940));
    let records: Vec<&[u8]> = file.chunks(94).collect();
    assert_eq!(records[..3], whole.chunks(94).take(3).collect::<Vec<_>>());
    let control = "82200000010032207038000000000000000000010000";
    assert!(records[3].starts_with(control.as_bytes()));
    assert_eq!(records[3][44..], whole[5 * 94 + 44..6 * 94]);
    let control = "9000001000001000000010032207038000000000000000000010000";
    assert_eq!(records[4], format!("{control:<94}").as_bytes());
    assert!(records[5..].iter().all(|record| *record == [b'9'; 94]));
}

#[test]
fn nothing_is_taken_out() {
    let mut random = Random::new(60);
    for plan in [sample(), with_batches(&[3, 1, 8]), plan(&mut random, 4, 6)] {
        leaves(&plan, &[], &plan);
    }
}

/// Every list of entries that leaves one, in order and backwards and with repeats.
#[test]
fn every_subset() {
    for counts in [&[2][..], &[1, 1], &[3, 2], &[1, 3, 1], &[2, 1, 4]] {
        let plan = with_batches(counts);
        let entries = plan.entry_count() as u64;
        for subset in 0..1 << entries {
            let list: Vec<u64> =
                (1..=entries).filter(|entry| subset >> (entry - 1) & 1 == 1).collect();
            let turned: Vec<u64> = list.iter().rev().chain(&list).copied().collect();
            if list.len() as u64 == entries {
                refuses(&plan, &list, (27, 0, 0));
                refuses(&plan, &turned, (27, 0, 0));
            } else {
                leaves(&plan, &list, &plan.without(&list));
                leaves(&plan, &turned, &plan.without(&list));
            }
        }
    }
}

/// Header, class, traces and batch numbers stay as they were.
#[test]
fn numbers_are_kept() {
    let mut plan = with_batches(&[2, 2, 3]);
    for (batch, number) in plan.batches.iter_mut().zip([4, 9, 77]) {
        batch.number = number;
        batch.class = 200;
    }
    let mut rest = plan.clone();
    rest.batches.remove(1);
    rest.batches[0].entries.remove(0);
    rest.batches[1].entries.remove(1);
    leaves(&plan, &[6, 3, 1, 4], &rest);
    assert_eq!((rest.batches[0].number, rest.batches[1].number), (4, 77));
    assert_eq!(rest.batches[1].entries.iter().map(|entry| entry.trace).collect::<Vec<_>>(), [1, 3]);
}

/// From 25 entries down to one: every number of fillers, and blocks that go.
#[test]
fn fillers() {
    let plan = with_batches(&[25]);
    for gone in 0..25 {
        let list: Vec<u64> = (1..=gone).collect();
        leaves(&plan, &list, &plan.without(&list));
        let list: Vec<u64> = (26 - gone..=25).collect();
        leaves(&plan, &list, &plan.without(&list));
    }
    // 25 entries, 8 addenda and 4 others are 37 records; one entry leaves five.
    let mut file = plan.file();
    assert_eq!(file.len(), 3_760);
    assert_eq!(take_out(Way::Plain, &mut file, &(2..=25).collect::<Vec<u64>>()), Ok(940));
}

/// A hash that was cut to ten digits, and totals that were full.
#[test]
fn sums_come_back() {
    let mut plan = near_limit(22, 999_999_999_999, 1);
    for entry in &mut plan.batches[0].entries {
        entry.routing = 39_999_999;
    }
    while plan.batches[0].entries.len() < 251 {
        let last = plan.batches[0].entries.last().unwrap().clone();
        plan.batches[0].entries.push(Entry { code: 23, amount: 0, trace: last.trace + 1, ..last });
    }
    for list in [&[251][..], &[1], &[1, 251], &[100, 101, 102, 250]] {
        leaves(&plan, list, &plan.without(list));
    }
}

#[test]
fn random_lists() {
    let mut random = Random::new(61);
    let mut answers = [0; 3];
    for _ in 0..3_000 {
        let plan = plan(&mut random, 4, 6);
        let list = random_recall(&mut random, &plan);
        let rest = plan.without(&list);
        let entries = plan.entry_count() as u64;
        if list.iter().any(|entry| !(1..=entries).contains(entry)) {
            refuses(&plan, &list, (25, 0, 0));
            answers[0] += 1;
        } else if rest.batches.is_empty() {
            refuses(&plan, &list, (27, 0, 0));
            answers[1] += 1;
        } else {
            leaves(&plan, &list, &rest);
            answers[2] += 1;
        }
    }
    assert!(answers.iter().all(|count| *count > 200), "{answers:?}");
}

/// The paper's sentence: the result is the file written from the table without those rows.
#[test]
fn it_is_the_file_of_the_table_without_the_rows() {
    let mut random = Random::new(62);
    for _ in 0..1_000 {
        let plan = plan(&mut random, 4, 6);
        let list = random_recall(&mut random, &plan);
        for way in Way::BOTH {
            let mut file = in_way(way, &plan.file());
            let table = read(way, &file).unwrap();
            if let Ok(length) = take_out(way, &mut file, &list) {
                let rest = without_entries(&table, &list);
                assert_eq!(write(way, &rest).as_deref(), Ok(&file[..length]));
                assert_eq!(read(way, &file[..length]), Ok(rest));
            }
        }
    }
}

#[test]
fn numbers_that_no_entry_has() {
    let plan = with_batches(&[2, 1]);
    for bad in NO_ENTRIES.into_iter().chain([4]) {
        refuses(&plan, &[bad], (25, 0, 0));
        refuses(&plan, &[1, bad], (25, 0, 0));
        refuses(&plan, &[bad, 1, 1], (25, 0, 0));
        // A bad number comes before the lack of entries.
        refuses(&plan, &[1, 2, 3, bad], (25, 0, 0));
    }
    refuses(&plan, &[3, 2, 1], (27, 0, 0));
    refuses(&plan, &[1, 2, 3, 1, 2, 3], (27, 0, 0));
}

/// More numbers than the file has bytes.
#[test]
fn a_long_list() {
    let plan = with_batches(&[2, 1]);
    let list = [3, 1].repeat(1_000);
    assert!(list.len() > plan.file().len());
    leaves(&plan, &list, &plan.without(&[1, 3]));
    refuses(&plan, &[1, 2, 3].repeat(1_000), (27, 0, 0));
}

#[test]
fn the_files_own_refusals_come_first() {
    let whole = sample().lined_file();
    let damaged = with_end(&whole, 10, b"\n\r");
    for list in [&[][..], &[1], &[0], &[1, 2], &[u64::MAX]] {
        for (way, file, expected) in [
            (Way::Plain, &whole[..0], (1, 0, 0)),
            (Way::Plain, &whole[..94], (2, 2, 0)),
            (Way::Plain, &whole[..], (1, 0, 0)),
            (Way::Lined, &damaged[..], (26, 10, 0)),
        ] {
            let mut lent = file.to_vec();
            assert_eq!(take_out(way, &mut lent, list).map_err(parts), Err(expected));
            assert_eq!(lent, file);
        }
    }
}

/// What is left can be taken from again, and one by one comes to the same as all at once.
#[test]
fn one_by_one() {
    let plan = with_batches(&[3, 4, 2]);
    let mut at_once = plan.lined_file();
    let length = take_out(Way::Lined, &mut at_once, &[9, 2, 5, 8]).unwrap();
    at_once.truncate(length);
    let mut file = plan.lined_file();
    for entry in [9, 8, 5, 2] {
        let length = take_out(Way::Lined, &mut file, &[entry]).unwrap();
        file.truncate(length);
    }
    assert_eq!(file, at_once);
    assert_eq!(check(Way::Lined, &file).unwrap().entries, 5);
}
