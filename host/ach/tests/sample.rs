//! The safe functions on the sample, and on files of every small shape.

mod common;

use ach::Way;
use common::in_both_ways;

const FILE: &[u8] = include_bytes!("../../../samples/whole.ach");
const LINED: &[u8] = include_bytes!("../../../samples/whole-lined.ach");

#[test]
fn the_sample_is_accepted() {
    let held = ach::check(Way::Plain, FILE).unwrap();
    assert_eq!((held.batches, held.entries, held.addenda), (1, 2, 1));
    assert_eq!((held.debit, held.credit), (0, 12_550));
    assert_eq!(held.by_code[..2], [2, 12_550]);
    assert_eq!(held.by_code[2..], [0; 22]);
}

#[test]
fn a_refusal_has_number_record_and_field() {
    let mut file = FILE.to_vec();
    file[6 * 94 + 54] = b'1';
    let refusal = ach::check(Way::Plain, &file).unwrap_err();
    assert_eq!((refusal.number, refusal.record, refusal.field), (21, 7, 7));
    assert_eq!(ach::check(Way::Plain, b"").unwrap_err().number, 1);
}

#[test]
fn the_sample_and_its_table() {
    let table = include_bytes!("../../../samples/whole.table");
    let mut room = [0; 1_000];
    assert_eq!(ach::read(Way::Plain, FILE, &mut room), Ok(470));
    assert_eq!(&room[..470], table);
    assert_eq!(ach::write(Way::Plain, table, &mut room), Ok(940));
    assert_eq!(&room[..940], FILE);
}

#[test]
fn an_amount_and_an_addendum() {
    let mut file = FILE.to_vec();
    let mut rows = [6, 12_550];
    assert_eq!(ach::alter(Way::Plain, &mut file, &mut rows, 1, 9_999), Ok(-1));
    assert_eq!(rows, [6, 12_549]);
    assert_eq!(ach::check(Way::Plain, &file).unwrap().credit, 12_549);
    assert_eq!(ach::addendum(Way::Plain, FILE, 1), Ok([].as_slice()));
    assert!(ach::addendum(Way::Plain, FILE, 2).unwrap().starts_with(b"REIMBURSEMENT"));
    assert_eq!(ach::addendum(Way::Plain, FILE, 3).unwrap_err().number, 25);
}

#[test]
fn the_lined_sample() {
    let held = ach::check(Way::Plain, FILE);
    assert_eq!(ach::check(Way::Lined, LINED), held);
    assert_eq!(ach::check(Way::Plain, LINED).unwrap_err(), ach::Refusal::without_place(1));
    assert_eq!(ach::check(Way::Lined, FILE).unwrap_err(), ach::Refusal::without_place(1));
    assert_eq!(ach::table_of(Way::Lined, LINED), ach::table_of(Way::Plain, FILE));
    let table = ach::table_of(Way::Lined, LINED).unwrap();
    let mut room = [0; 1_000];
    assert_eq!(ach::write(Way::Lined, &table, &mut room), Ok(960));
    assert_eq!(&room[..960], LINED);
    assert_eq!(room[960..], [0; 40]);
    assert_eq!(ach::write(Way::Lined, &table, &mut room[..959]).unwrap_err().number, 23);

    let mut file = LINED.to_vec();
    let mut rows = ach::rows_of(Way::Plain, FILE).unwrap();
    assert_eq!(ach::alter(Way::Lined, &mut file, &mut rows, 1, 9_999), Ok(-1));
    assert_eq!(ach::check(Way::Lined, &file).unwrap().credit, 12_549);
    let differing = file.iter().zip(LINED).filter(|(new, old)| new != old).count();
    // 0000010000 becomes 0000009999, and both totals end with 49 for 50.
    assert_eq!(differing, 5 + 2 * 2);
    let text = ach::addendum(Way::Lined, LINED, 2).unwrap();
    assert_eq!(text, ach::addendum(Way::Plain, FILE, 2).unwrap());
    assert_eq!(text.as_ptr(), LINED[4 * 96 + 3..].as_ptr());
}

#[test]
fn a_line_end_is_refused_by_every_function() {
    for record in 1..=10 {
        let mut file = LINED.to_vec();
        file[record * 96 - 1] = b' ';
        let refusal = ach::Refusal { number: 26, record: record as u64, field: 0 };
        assert_eq!(ach::check(Way::Lined, &file), Err(refusal));
        assert_eq!(ach::table_of(Way::Lined, &file), Err(refusal));
        assert_eq!(ach::addendum(Way::Lined, &file, 1), Err(refusal));
        let before = file.clone();
        assert_eq!(ach::alter(Way::Lined, &mut file, &mut [], 1, 1), Err(refusal));
        assert_eq!(ach::take_out(Way::Lined, &mut file, &[1], &mut []), Err(refusal));
        assert_eq!(file, before);
    }
}

/// The room that results are given suffices, however the rows are spread over batches.
#[test]
fn results_in_memory_of_their_own() {
    let mut random = generate::Random::new(2);
    for (most_batches, most_entries) in [(1, 1), (1, 40), (40, 1), (12, 12)] {
        for _ in 0..50 {
            let plan = generate::plan(&mut random, most_batches, most_entries);
            for (way, file) in in_both_ways(&plan.file()) {
                assert_eq!(ach::table_of(way, &file), Ok(plan.table()));
                assert_eq!(ach::file_of(way, &plan.table()), Ok(file));
            }
        }
    }
    for way in Way::BOTH {
        assert_eq!(ach::file_of(way, b"").unwrap_err().number, 24);
        assert_eq!(ach::table_of(way, b"").unwrap_err().number, 1);
    }
}

/// The least room for the file of a table with so many rows, by the rule of blocks.
fn need(way: Way, batches: usize, entries: usize, addenda: usize) -> usize {
    let records = 2 + 2 * batches + entries + addenda;
    records.next_multiple_of(10) * way.record_length()
}

/// Every file with at least one entry in each batch fits the room that is said to suffice.
#[test]
fn the_room_for_a_file() {
    assert_eq!(Way::Plain.room_for_file(470), 2 * 470 + 816);
    assert_eq!(Way::Lined.room_for_file(470), 2 * 470 + 838);
    let counts = [1, 2, 3, 4, 5, 6, 7, 8, 9, 10, 11, 99, 1_000, 249_999, 333_332];
    for way in Way::BOTH {
        assert_eq!(way.room_for_file(usize::MAX), way.longest_file());
        for batches in counts {
            for more_entries in [0].into_iter().chain(counts) {
                let entries = batches + more_entries;
                for addenda in [0, 1, entries / 2, entries] {
                    let table = 109 + 95 * batches + 93 * entries + 80 * addenda;
                    let need = need(way, batches, entries, addenda);
                    let room = way.room_for_file(table);
                    assert!(need <= room || need > way.longest_file(), "{batches} {entries}");
                }
            }
        }
    }
}

#[test]
fn a_refusal_speaks() {
    let words = |record, field| ach::Refusal { number: 6, record, field }.to_string();
    assert_eq!(words(0, 0), "refusal 6: something other than digits stands here");
    assert_eq!(words(8, 0), "refusal 6: something other than digits stands here (record 8)");
    assert!(words(8, 3).ends_with("stands here (record 8, field 3)"));
    let known: Vec<u8> = (0..=255).filter(|number| ach::reason(*number).is_some()).collect();
    assert_eq!(known, (1..=30).chain([32, 34]).collect::<Vec<u8>>());
}
