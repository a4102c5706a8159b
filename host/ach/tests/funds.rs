//! Where the money runs out, through the safe functions: the rows, the question, and what altering
//! and taking out make of the rows.

mod common;

use ach::{Refusal, Row, RunsOut, Way};
use common::GAPS_IN_BOTH_WAYS;
use generate::funds::{limits, other_lists, random_rows};
use generate::recalls::random_recall;
use generate::{plan, Random};

const ROWS: [u64; 4] = [7, 684_610, 11, 900_635];
const NO_ROOM: Refusal = Refusal::without_place(23);
const NOT_ITS_ROWS: Refusal = Refusal::without_place(34);

#[test]
fn the_rows_of_a_sample() {
    for (way, file) in GAPS_IN_BOTH_WAYS {
        assert_eq!(ach::rows_of(way, file).as_deref(), Ok(&ROWS[..]));
        for room in 0..9 {
            let mut rows = vec![7; room];
            let answer = ach::check_into(way, file, &mut rows);
            if room < 4 {
                assert_eq!((answer, rows), (Err(NO_ROOM), vec![7; room]));
            } else {
                assert_eq!(answer, ach::check(way, file));
                assert_eq!(rows, [&ROWS, &vec![7; room - 4][..]].concat());
            }
        }
    }
}

#[test]
fn the_question_of_a_sample() {
    let [first, second] = [0, 2].map(|at| Some(Row { record: ROWS[at], credits: ROWS[at + 1] }));
    for (limit, found, rows) in [
        (0, first, 1),
        (684_609, first, 1),
        (684_610, second, 2),
        (900_634, second, 2),
        (900_635, None, 2),
        (u64::MAX, None, 2),
    ] {
        assert_eq!(ach::runs_out(&ROWS, limit), RunsOut { found, rows });
    }
}

#[test]
fn the_question_of_any_numbers() {
    let mut random = Random::new(8);
    for _ in 0..500 {
        let numbers = random_rows(&mut random);
        let rows: Vec<Row> =
            numbers.chunks_exact(2).map(|row| Row { record: row[0], credits: row[1] }).collect();
        for limit in limits(&numbers) {
            let within = rows.iter().take_while(|row| row.credits <= limit).count();
            let found = rows.get(within).copied();
            let count = within as u64 + u64::from(found.is_some());
            assert_eq!(ach::runs_out(&numbers, limit), RunsOut { found, rows: count });
        }
    }
}

#[test]
fn other_rows_are_refused_before_entry_and_amount() {
    for (way, file) in GAPS_IN_BOTH_WAYS {
        for other in other_lists(&ROWS) {
            for (entry, amount) in [(1, 142_050), (1, 0), (0, 1), (7, u64::MAX)] {
                let (mut lent, mut rows) = (file.to_vec(), other.clone());
                let answer = ach::alter(way, &mut lent, &mut rows, entry, amount);
                assert_eq!(answer, Err(NOT_ITS_ROWS), "{other:?}");
                assert_eq!((lent.as_slice(), &rows), (file, &other));
            }
        }
    }
}

/// Alterations in a row, refused ones among them, and at the end entries taken out.
#[test]
fn the_rows_stay_those_of_the_file() {
    let mut random = Random::new(9);
    for _ in 0..100 {
        let plan = plan(&mut random, 4, 4);
        let mut file = plan.file();
        let mut rows = ach::rows_of(Way::Plain, &file).unwrap();
        assert_eq!(rows, plan.rows());
        rows.push(7);
        for _ in 0..10 {
            let (entry, amount) = (random.below(9) as u64, random.between(0, 9_999_999_999));
            let _ = ach::alter(Way::Plain, &mut file, &mut rows, entry, amount);
            let own = ach::rows_of(Way::Plain, &file).unwrap();
            assert_eq!(rows, [&own[..], &[7]].concat());
        }
        let list = random_recall(&mut random, &plan);
        if let Ok(length) = ach::take_out(Way::Plain, &mut file, &list, &mut rows) {
            let own = ach::rows_of(Way::Plain, &file[..length]).unwrap();
            assert!(rows.starts_with(&own) && rows.ends_with(&[7]));
            assert_eq!(own.len(), plan.without(&list).rows().len());
        }
    }
}

/// No file has more batches than the room that is said to suffice has rows.
#[test]
fn the_room_for_rows() {
    for way in Way::BOTH {
        let one = way.record_length();
        assert_eq!(way.room_for_rows(0), 0);
        assert_eq!(way.room_for_rows(10 * one), 4);
        assert_eq!(way.room_for_rows(way.longest_file()), 666_664);
        assert_eq!(way.room_for_rows(usize::MAX), 666_664);
        for batches in [1, 2, 3, 4, 10, 333_332] {
            // Of one entry each, without fillers, which only make the file longer.
            let length = (2 + 3 * batches) * one;
            assert_eq!(way.room_for_rows(length), 2 * batches);
            assert!(2 * batches <= length / 141);
        }
    }
}
