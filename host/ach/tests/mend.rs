//! Mending through the boundary: what is cured, what is listed, and how much room it takes.

mod common;

use ach::fields::record_type;
use ach::{Change, Changes, Fillers, Way};
use common::in_both_ways;
use generate::controls::{with_fillers, without_controls, FILLER};
use generate::copies::{with_column, with_field, with_record_inserted, without_record};
use generate::lines::with_end;
use generate::{big_file, sample, BigFile, RECORD};

#[test]
fn an_accepted_file_stays() {
    let files = samples::by_name();
    for (name, line) in samples::index().into_iter().filter(|(_, line)| line.starts_with("OK")) {
        for (way, file) in in_both_ways(&files[name]) {
            let mended =
                ach::mend(way, &file).unwrap_or_else(|refusal| panic!("{name}: {refusal}"));
            assert_eq!(mended.list, [b'0'; 21], "{name}");
            assert!(mended.changes().is_empty(), "{name}");
            assert!(mended.file == file, "{name}, {line}");
        }
    }
}

/// Every field of both controls is put right, and is the one change that is listed.
#[test]
fn a_wrong_field_is_the_change() {
    let file = sample().file();
    for (record, digit) in [(6, b'8'), (7, b'9')] {
        let fields = record_type(digit).unwrap().fields;
        for (field, number) in fields.iter().zip(1..).skip(1) {
            let (old, new) = (vec![b'#'; field.width()], field.of(&file[(record - 1) * RECORD..]));
            let wrong = with_field(&file, record, number, &old);
            let mended = ach::mend(Way::Plain, &wrong).unwrap();
            assert!(mended.file == file);
            let listed = Change { record: record as u64, field: number, old: &old, new };
            let mut due = Changes::default();
            match digit {
                b'8' => due.batch_controls.push(listed),
                _ => due.file_control.push(listed),
            }
            assert_eq!(mended.changes(), due);
        }
    }
}

#[test]
fn fillers_are_counted() {
    let file = sample().file();
    for old in (0..=30).filter(|old| *old != 3) {
        let counted = (old <= 9).then_some(old as u8);
        let mended = ach::mend(Way::Plain, &with_fillers(&file, 7, old)).unwrap();
        assert!(mended.file == file);
        let fillers = Some(Fillers { old: counted, new: 3 });
        assert_eq!(mended.changes(), Changes { fillers, ..Changes::default() });
    }
}

/// A filler is written afresh with its line end; no other line end is mended.
#[test]
fn line_ends() {
    let file = sample().lined_file();
    for record in 8..=10 {
        let mended = ach::mend(Way::Lined, &with_end(&file, record, b"  ")).unwrap();
        assert!(mended.file == file && mended.changes().is_empty());
    }
    for record in 1..=7 {
        let refusal = ach::mend(Way::Lined, &with_end(&file, record, b"  ")).unwrap_err();
        assert_eq!((refusal.number, refusal.record, refusal.field), (26, record as u64, 0));
    }
}

/// Where the file control is missing, the first filler is filled in as such.
#[test]
fn the_first_filler_for_the_file_control() {
    let file = sample().file();
    let mended = ach::mend(Way::Plain, &without_record(&file, 7)).unwrap();
    assert!(mended.file == file);
    let changes = mended.changes();
    assert_eq!(
        changes.file_control.iter().map(|change| change.field).collect::<Vec<_>>(),
        [2, 3, 4, 5, 6, 7, 8]
    );
    assert_eq!(changes.fillers, Some(Fillers { old: Some(2), new: 3 }));
}

#[test]
fn what_mending_does_not_cure() {
    let file = sample().file();
    let control = &file[6 * RECORD..7 * RECORD];
    let refused = |file: &[u8]| {
        let refusal = ach::mend(Way::Plain, file).unwrap_err();
        (refusal.number, refusal.record, refusal.field)
    };
    assert_eq!(refused(b""), (1, 0, 0));
    assert_eq!(refused(&file[1..]), (1, 0, 0));
    assert_eq!(refused(&[b'8'; RECORD]), (3, 1, 1));
    assert_eq!(refused(&FILLER.repeat(10)), (3, 1, 1));
    assert_eq!(refused(&file[..6 * RECORD]), (2, 7, 0));
    assert_eq!(refused(&with_record_inserted(&file, 8, control)), (4, 8, 0));
    assert_eq!(refused(&with_column(&file, 10, 94, b' ')), (4, 10, 0));
    assert_eq!(refused(&with_field(&file, 3, 6, "0000000000")), (14, 3, 6));
    assert_eq!(refused(&without_record(&file, 2)), (3, 2, 1));
}

/// Batches of one entry, and nothing right in any control: the changes fill all room there is.
#[test]
fn room_for_the_most_changes() {
    let shape = BigFile { records: 302, entries_in_batch: 1, addendum_every: 0 };
    let file = big_file(&shape);
    let wrong = without_controls(&file[..shape.records * RECORD], b'#');
    for ((way, lent), (_, due)) in in_both_ways(&wrong).into_iter().zip(in_both_ways(&file)) {
        let mended = ach::mend(way, &lent).unwrap();
        assert!(mended.file == due);
        assert_eq!(mended.file.len(), way.room_for_mended(lent.len()));
        assert_eq!(mended.list.len(), way.room_for_changes(lent.len()));
        assert_eq!(mended.changes().batch_controls.len(), 100 * 10);
    }
}

/// What include/ach.h says is always enough; fewer records than five are never granted.
#[test]
fn room_that_the_header_names() {
    let rooms = (5..=1_000_000).map(|records| {
        let length = records * Way::Plain.record_length();
        (Way::Plain.room_for_changes(length), length + 78)
    });
    assert!(rooms.clone().all(|(room, named)| room <= named));
    assert!(rooms.clone().any(|(room, named)| room == named));
}

#[test]
fn bytes_that_are_no_list_of_changes() {
    let good: &[u8] = b"0000001000000604006440406600644140760000000000000103";
    let lists = [
        &good[..good.len() - 1],
        b"00000010000006040064404066006441407600000000000001030",
        b"0000001000000601880000000000000103",
        b"00000010000006120000000000000000000103",
        b"000000000000000000002++",
        b"000000000000000000001+",
        b"000000000000000000001++",
        b"00000000000000000000 ",
        b"",
    ];
    assert!(Changes::of(good).is_some());
    for list in lists {
        assert_eq!(Changes::of(list), None, "{}", String::from_utf8_lossy(list));
    }
}
