//! Client lists through the safe functions: rows and lines, rooms that suffice, and the way back.

mod common;

use ach::{Refusal, Way};
use common::{BATCH_ROW, FILE_ROW, LIST, LISTED};
use generate::lists::{list_of, rows_of, List};
use generate::remittances::with_prenotes_for_remittances;
use generate::{plan, sample, Entry, Random};

#[test]
fn the_list_and_its_table() {
    assert_eq!((FILE_ROW.len(), BATCH_ROW.len()), (ach::FILE_ROW, ach::BATCH_ROW));
    assert_eq!(ach::import(FILE_ROW, BATCH_ROW, LIST).as_deref(), Ok(LISTED));
    let lines = ach::export(LISTED).unwrap();
    assert_eq!(ach::import(FILE_ROW, BATCH_ROW, &lines).as_deref(), Ok(LISTED));
    let file = ach::file_of(Way::Plain, LISTED).unwrap();
    assert_eq!(ach::check(Way::Plain, &file).unwrap().credit, 426_249);
}

#[test]
fn rooms_are_filled_in_front_or_not_at_all() {
    let lines = ach::export(LISTED).unwrap();
    for (need, fill) in [
        (LISTED, &(|room: &mut [u8]| ach::import_into(FILE_ROW, BATCH_ROW, LIST, room)) as &Fill),
        (&lines, &|room| ach::export_into(LISTED, room)),
    ] {
        for size in [0, 1, need.len() - 1, need.len(), need.len() + 1, 2_000] {
            let mut room = vec![b'?'; size];
            let written = match fill(&mut room) {
                Ok(length) => length,
                Err(refusal) => {
                    assert_eq!(refusal, Refusal::without_place(23));
                    0
                }
            };
            assert_eq!(written, if size < need.len() { 0 } else { need.len() });
            assert_eq!(room[..written], need[..written]);
            assert!(room[written..].iter().all(|byte| *byte == b'?'));
        }
    }
}

type Fill = dyn Fn(&mut [u8]) -> Result<usize, Refusal>;

/// The shortest lines there are fill the room just so; with a byte less there would be one less.
#[test]
fn the_room_for_a_table() {
    assert_eq!(ach::room_for_table(usize::MAX), 204 + 93 * 999_996);
    for count in 1..50 {
        let mut lines = b"22,322070381,7,0.01,,A\r\n".repeat(count);
        for _ in 0..2 {
            let table = ach::import(FILE_ROW, BATCH_ROW, &lines).unwrap();
            assert_eq!(table.len(), ach::room_for_table(lines.len()));
            lines.truncate(24 * count - 2);
        }
        assert_eq!(ach::room_for_table(24 * count - 3), 204 + 93 * (count - 1));
    }
}

/// The longest lines there are fit, however many.
#[test]
fn the_room_for_lines() {
    let longest = Entry {
        account: "X".repeat(17),
        amount: 9_999_999_999,
        identification: "\"".repeat(15),
        name: "\"".repeat(22),
        addendum: None,
        ..sample().batches.remove(0).entries.remove(0)
    };
    for count in 1..50 {
        let mut plan = sample();
        let entries = (1..=count).map(|trace| Entry { trace, ..longest.clone() });
        plan.batches[0].entries = entries.collect();
        let table = plan.table();
        let lines = ach::export(&table).unwrap();
        assert_eq!(lines.len(), 132 * count as usize);
        assert!(lines.len() <= ach::room_for_lines(table.len()));
    }
    let most_entries = 204 + 93 * 999_996;
    assert_eq!(ach::room_for_lines(most_entries), 132 * 999_996);
    assert_eq!(ach::room_for_lines(usize::MAX), 132 * 999_996);
}

#[test]
fn results_in_memory_of_their_own() {
    let mut random = Random::new(8);
    for (most_batches, most_entries) in [(1, 1), (1, 40), (20, 1), (6, 6)] {
        for _ in 0..50 {
            let plan = with_prenotes_for_remittances(plan(&mut random, most_batches, most_entries));
            let List { file_row, batch_row, lines } = list_of(&mut random, &plan, 0);
            let table = ach::import(&file_row, &batch_row, &lines).unwrap();
            let in_first_batch = plan.batches[0].entries.len();
            assert_eq!(entries(&table), entries(&plan.table())[..in_first_batch]);
            let lines = ach::export(&plan.table()).unwrap();
            assert_eq!(imported_under_both_sides(&lines), entries(&plan.table()));
        }
    }
}

/// Columns 2 to 76 of every entry: the six fields of a line.
fn entries(table: &[u8]) -> Vec<Vec<u8>> {
    let rows = generate::tables::Sections::of(table).rows[2].clone();
    table[rows].chunks(93).map(|row| row[..75].to_vec()).collect()
}

fn imported_under_both_sides(lines: &[u8]) -> Vec<Vec<u8>> {
    let mut both_sides = sample();
    both_sides.batches[0].class = 200;
    let (file_row, batch_row) = rows_of(&both_sides, 0);
    entries(&ach::import(&file_row, &batch_row, lines).unwrap())
}

#[test]
fn refusals_of_a_list() {
    let refused = |lines: &str| {
        let Refusal { number, record, field } =
            ach::import(FILE_ROW, BATCH_ROW, lines.as_bytes()).expect_err("a refusal is due");
        (number, record, field)
    };
    let good = "22,322070381,7,0.01,,A";
    assert_eq!(refused(""), (3, 3, 1));
    assert_eq!(refused("\r\n"), (29, 1, 0));
    assert_eq!(refused(&format!("{good}\r\n{good},")), (29, 2, 0));
    assert_eq!(refused(&format!("{good}\r\n22,322070381,7,1.0,,A")), (30, 2, 4));
    assert_eq!(refused(&format!("{good}\r\n22,322070381,7,1.00,,{}", "A".repeat(23))), (32, 2, 6));
    assert_eq!(refused(&format!("{good}\r\n22,322070382,7,1.00,,A")), (12, 4, 4));
    assert_eq!(ach::import(b"", BATCH_ROW, LIST), Err(Refusal::without_place(24)));
    assert_eq!(ach::import(FILE_ROW, &BATCH_ROW[1..], LIST), Err(Refusal::without_place(24)));
    assert_eq!(ach::import(b"", b"", b"X").unwrap_err().number, 29);
    assert_eq!(ach::export(b""), Err(Refusal::without_place(24)));
    assert_eq!(ach::export(&LISTED[1..]), Err(Refusal::without_place(24)));
}

#[test]
fn a_refusal_names_the_line() {
    let refusal = ach::import(FILE_ROW, BATCH_ROW, b",,,,,").unwrap_err();
    assert!(refusal.is_of_line());
    assert!(refusal.to_string().ends_with(" (line 1, field 4)"), "{refusal}");
    let refusal = ach::import(FILE_ROW, BATCH_ROW, b"").unwrap_err();
    assert!(!refusal.is_of_line());
    assert!(refusal.to_string().ends_with(" (record 3, field 1)"), "{refusal}");
}
