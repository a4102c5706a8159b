//! Where the money runs out: the list that checking gives, the question, and what altering and
//! taking out make of the list.

mod common;

use common::{in_way, parts};
use generate::damage::random_damage;
use generate::funds::{limits, other_lists, random_rows};
use generate::recalls::random_recall;
use generate::{is_credit, plan, sample, Batch, Plan, Random};
use independent::{alter, check, check_into, rows_of, runs_out, take_out, RunsOut, Way};

/// What lent numbers hold where nothing was put.
const BEFORE: u64 = 0x25A5_5A5A_C3C3_3C3C;

/// The batch of the sample three times, the second one as debits.
fn three_batches() -> Plan {
    let mut plan = sample();
    let model = plan.batches.remove(0);
    for number in 1..=3 {
        plan.batches.push(Batch { number, class: 200, ..model.clone() });
    }
    plan.batches[1].entries.iter_mut().for_each(|entry| entry.code = 27);
    plan
}

/// Worked out by hand: behind record 1 each batch has a header, two entries, an addendum and a control.
#[test]
fn the_list_of_three_batches() {
    let file = three_batches().file();
    let rows = [6, 12_550, 11, 12_550, 16, 25_100];
    assert_eq!(rows_of(Way::Plain, &file), Ok(rows.to_vec()));
    for (limit, found, count) in [
        (0, Some((6, 12_550)), 1),
        (12_549, Some((6, 12_550)), 1),
        // No more than the limit is not over it.
        (12_550, Some((16, 25_100)), 3),
        (25_099, Some((16, 25_100)), 3),
        (25_100, None, 3),
        (u64::MAX, None, 3),
    ] {
        assert_eq!(runs_out(&rows, limit), RunsOut { found, rows: count });
    }
}

#[test]
fn the_list_of_any_file_and_its_room() {
    let mut random = Random::new(80);
    for _ in 0..500 {
        let plan = plan(&mut random, 5, 4);
        let rows = plan.rows();
        for way in Way::BOTH {
            let file = in_way(way, &plan.file());
            assert_eq!(rows_of(way, &file), Ok(rows.clone()));
            for more in [0, 1, 2, 7] {
                let mut lent = vec![BEFORE; rows.len() + more];
                assert_eq!(check_into(way, &file, &mut lent), check(way, &file));
                assert_eq!(lent, [rows.clone(), vec![BEFORE; more]].concat());
            }
            for room in [0, 1, rows.len() - 1] {
                let mut lent = vec![BEFORE; room];
                assert_eq!(check_into(way, &file, &mut lent).map_err(parts), Err((23, 0, 0)));
                assert_eq!(lent, vec![BEFORE; room]);
            }
        }
    }
}

/// Whether a file is refused, and why, does not hang on the list.
#[test]
fn refused_files_have_no_list() {
    let mut random = Random::new(81);
    for _ in 0..500 {
        let file = plan(&mut random, 3, 4).file();
        let file = random_damage(&mut random, &file);
        if let Err(refusal) = check(Way::Plain, &file) {
            for room in [0, 1, 100] {
                let mut lent = vec![BEFORE; room];
                assert_eq!(check_into(Way::Plain, &file, &mut lent), Err(refusal));
                assert_eq!(alter(Way::Plain, &mut file.clone(), &mut lent, 0, 0), Err(refusal));
                let taken = take_out(Way::Plain, &mut file.clone(), &[0], &mut lent);
                assert_eq!(taken, Err(refusal));
                assert_eq!(lent, vec![BEFORE; room]);
            }
        }
    }
}

/// The first batch at whose end the credits of all entries up to there exceed the limit.
fn by_summing(plan: &Plan, limit: u64) -> Option<usize> {
    let credits = |batches: &[Batch]| -> u64 {
        let entries = batches.iter().flat_map(|batch| &batch.entries);
        entries.filter(|entry| is_credit(entry.code)).map(|entry| entry.amount).sum()
    };
    (1..=plan.batches.len()).find(|count| credits(&plan.batches[..*count]) > limit)
}

#[test]
fn of_a_files_own_list_it_is_the_answer_from_summing_every_entry() {
    let mut random = Random::new(82);
    for _ in 0..300 {
        let plan = plan(&mut random, 6, 3);
        let rows = rows_of(Way::Plain, &plan.file()).unwrap();
        for limit in limits(&rows) {
            let answer = runs_out(&rows, limit);
            match by_summing(&plan, limit) {
                Some(batch) => {
                    assert_eq!(answer.rows, batch);
                    assert_eq!(answer.found, Some((rows[2 * batch - 2], rows[2 * batch - 1])));
                }
                None => {
                    assert_eq!(answer, RunsOut { found: None, rows: plan.batches.len() });
                }
            }
        }
    }
}

#[test]
fn of_any_list_it_is_the_first_row_over_the_limit() {
    let mut random = Random::new(83);
    for _ in 0..2_000 {
        let rows = random_rows(&mut random);
        for limit in limits(&rows) {
            let RunsOut { found, rows: count } = runs_out(&rows, limit);
            let credits = |row: usize| rows[2 * row + 1];
            match found {
                Some(row) => {
                    assert_eq!(row, (rows[2 * count - 2], credits(count - 1)));
                    assert!(credits(count - 1) > limit);
                    assert!((0..count - 1).all(|row| credits(row) <= limit));
                }
                None => {
                    assert_eq!(count, rows.len() / 2);
                    assert!((0..count).all(|row| credits(row) <= limit));
                }
            }
        }
    }
    for lone in [0, 1, u64::MAX] {
        assert_eq!(runs_out(&[], lone), RunsOut { found: None, rows: 0 });
        assert_eq!(runs_out(&[lone], 0), RunsOut { found: None, rows: 0 });
        assert_eq!(runs_out(&[7, 5, lone], 5), RunsOut { found: None, rows: 1 });
    }
}

/// Any other list is refused, after the file's own refusals and before those of entry and amount.
#[test]
fn only_the_files_own_list_goes_with_an_alteration() {
    for plan in [sample(), three_batches()] {
        for way in Way::BOTH {
            let file = in_way(way, &plan.file());
            for list in other_lists(&plan.rows()) {
                for (entry, amount) in [(1, 10_000), (2, 1), (1, 0), (0, 1), (99, u64::MAX)] {
                    let (mut altered, mut lent) = (file.clone(), list.clone());
                    let answer = alter(way, &mut altered, &mut lent, entry, amount);
                    assert_eq!(answer.map_err(parts), Err((34, 0, 0)), "{list:?}");
                    assert_eq!((&altered, &lent), (&file, &list));
                }
            }
        }
    }
}

#[test]
fn a_run_of_alterations_keeps_the_list() {
    let mut random = Random::new(84);
    for _ in 0..200 {
        let mut file = plan(&mut random, 4, 4).file();
        let own = rows_of(Way::Plain, &file).unwrap();
        let more = random.below(3);
        let mut lent = [own.clone(), vec![BEFORE; more]].concat();
        for _ in 0..20 {
            let (entry, amount) = (random.below(8) as u64, random.between(0, 9_999_999_999));
            let before = (file.clone(), lent.clone());
            if alter(Way::Plain, &mut file, &mut lent, entry, amount).is_err() {
                assert_eq!((&file, &lent), (&before.0, &before.1));
            }
            let own = rows_of(Way::Plain, &file).unwrap();
            assert_eq!(lent, [own, vec![BEFORE; more]].concat());
        }
    }
}

/// The room is measured by the batches left, and what the list held is not read.
#[test]
fn the_list_of_what_is_left() {
    let mut random = Random::new(85);
    let mut granted = 0;
    for _ in 0..500 {
        let plan = plan(&mut random, 4, 3);
        let list = random_recall(&mut random, &plan);
        let file = plan.file();
        let mut rest = file.clone();
        let mut lent = vec![BEFORE; 8];
        let Ok(length) = take_out(Way::Plain, &mut rest, &list, &mut lent) else {
            assert_eq!((&rest, &lent), (&file, &vec![BEFORE; 8]));
            continue;
        };
        let rows = plan.without(&list).rows();
        assert_eq!(rows_of(Way::Plain, &rest[..length]), Ok(rows.clone()));
        assert_eq!(lent, [rows.clone(), vec![BEFORE; 8 - rows.len()]].concat());
        let mut again = file.clone();
        let mut just = vec![0; rows.len()];
        assert_eq!(take_out(Way::Plain, &mut again, &list, &mut just), Ok(length));
        assert_eq!((again, just), (rest, rows.clone()));
        for room in [0, rows.len() - 1] {
            let (mut again, mut short) = (file.clone(), vec![BEFORE; room]);
            let taken = take_out(Way::Plain, &mut again, &list, &mut short);
            assert_eq!(taken.map_err(parts), Err((23, 0, 0)));
            assert_eq!((again, short), (file.clone(), vec![BEFORE; room]));
        }
        granted += 1;
    }
    assert!(granted > 200, "{granted}");
}

#[test]
fn a_bad_number_and_no_entry_left_come_before_the_room() {
    let file = three_batches().file();
    for (list, expected) in [
        (&[0][..], (25, 0, 0)),
        (&[1, 2, 3, 4, 5, 6, 7], (25, 0, 0)),
        (&[1, 2, 3, 4, 5, 6], (27, 0, 0)),
        (&[1, 2, 3, 4, 5], (23, 0, 0)),
        (&[], (23, 0, 0)),
    ] {
        let taken = take_out(Way::Plain, &mut file.clone(), list, &mut [BEFORE]);
        assert_eq!(taken.map_err(parts), Err(expected), "{list:?}");
    }
    let mut rows = [BEFORE; 2];
    assert!(take_out(Way::Plain, &mut file.clone(), &[1, 2, 3, 4, 5], &mut rows).is_ok());
    // The batch's header, an entry with its addendum and the control are records 2 to 5.
    assert_eq!(rows, [5, 2_550]);
}
