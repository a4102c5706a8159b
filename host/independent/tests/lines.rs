//! The way with CR LF behind every record.

mod common;

use common::{alter, check_room, parts, Parts};
use generate::copies::{with_column, with_field};
use generate::damage::random_damage;
use generate::lines::{end_range, lined, random_end_damage, with_end, LINED_RECORD, WRONG_ENDS};
use generate::seal::resealed;
use generate::{plan, sample, Plan, Random, RECORD};
use independent::{addendum, check, read, read_into, write, write_into, Refusal, Way};

const WHOLE_TABLE: &[u8] = include_bytes!("../../../samples/whole.table");

fn refused(file: &[u8]) -> Parts {
    parts(check(Way::Lined, file).expect_err("a refusal is due"))
}

fn whole() -> Vec<u8> {
    sample().lined_file()
}

#[test]
fn the_sample_in_both_ways() {
    let file = whole();
    assert_eq!(file.len(), 960);
    assert_eq!(check(Way::Lined, &file), check(Way::Plain, &sample().file()));
    assert!(check(Way::Lined, &file).is_ok());
    assert_eq!(read(Way::Lined, &file).as_deref(), Ok(WHOLE_TABLE));
    assert_eq!(write(Way::Lined, WHOLE_TABLE), Ok(file));
}

#[test]
fn nothing_guesses_the_way() {
    assert_eq!(refused(&sample().file()), (1, 0, 0));
    assert_eq!(parts(check(Way::Plain, &whole()).unwrap_err()), (1, 0, 0));
    // 470 records with line ends are as many bytes as 480 without.
    let mut long = sample();
    let entry = long.batches[0].entries[0].clone();
    long.batches[0].entries =
        (1..=466).map(|trace| generate::Entry { trace, ..entry.clone() }).collect();
    let file = long.lined_file();
    assert_eq!(file.len(), 480 * RECORD);
    assert!(check(Way::Lined, &file).is_ok());
    assert_eq!(parts(check(Way::Plain, &file).unwrap_err()), (3, 2, 1));
}

#[test]
fn cuts() {
    let file = whole();
    for length in 0..file.len() {
        let records = length / LINED_RECORD;
        let whole_records = records > 0 && length % LINED_RECORD == 0;
        let expected = if whole_records { (2, records as u64 + 1, 0) } else { (1, 0, 0) };
        assert_eq!(refused(&file[..length]), expected);
    }
    // Without its last line end a file has no right length.
    assert_eq!(refused(&file[..file.len() - 2]), (1, 0, 0));
}

#[test]
fn every_byte_of_every_line_end() {
    let mut file = whole();
    for record in 1..=10 {
        for place in end_range(record) {
            let kept = file[place];
            for byte in (0..=255).filter(|byte| *byte != kept) {
                file[place] = byte;
                assert_eq!(refused(&file), (26, record as u64, 0));
            }
            file[place] = kept;
        }
        for end in WRONG_ENDS {
            assert_eq!(refused(&with_end(&file, record, end)), (26, record as u64, 0));
        }
    }
}

#[test]
fn a_line_end_more_or_less_moves_all_behind_it() {
    let file = whole();
    assert_eq!(refused(&with_end(&file, 1, b"\n")), (1, 0, 0));
    assert_eq!(refused(&with_end(&file, 1, b"\r\n\r\n")), (1, 0, 0));
    // With the length made up for at the end: the second record begins a byte early or late.
    let early = [with_end(&file, 1, b"\n"), b"9".to_vec()].concat();
    assert_eq!(refused(&early), (26, 1, 0));
    let late = with_end(&file, 1, b"\r\n\r\n")[..960].to_vec();
    assert_eq!(refused(&late), (3, 2, 1));
}

/// The fields of a record come before its line end, and that before all of the next record.
#[test]
fn the_place_of_26_among_the_refusals() {
    let plain = sample().file();
    let with_fault = |record, field, text: &str| lined(&with_field(&plain, record, field, text));
    for (record, field, text, number) in [
        (1, 13, " X      ", 9),
        (2, 13, "0000000", 17),
        (3, 11, "322070380000000", 16),
        (5, 5, "0000001", 16),
        (6, 11, "0000002", 22),
        (7, 8, "                                      9", 5),
    ] {
        let file = with_fault(record, field, text);
        let place = (number, record as u64, field);
        assert_eq!(refused(&with_end(&file, record, b"\n\r")), place);
        assert_eq!(refused(&with_end(&file, record + 1, b"\n\r")), place);
        if record > 1 {
            let before = (26, record as u64 - 1, 0);
            assert_eq!(refused(&with_end(&file, record - 1, b"\n\r")), before);
        }
    }
    let wrong_type = lined(&with_column(&plain, 4, 1, b'4'));
    assert_eq!(refused(&with_end(&wrong_type, 4, b"\n\r")), (3, 4, 1));
    assert_eq!(refused(&with_end(&wrong_type, 3, b"\n\r")), (26, 3, 0));
}

#[test]
fn a_line_end_before_the_end_of_the_data() {
    let file = whole();
    for records in 1..=9 {
        let cut = &file[..records * LINED_RECORD];
        assert_eq!(refused(&with_end(cut, records, b"\n\r")), (26, records as u64, 0));
    }
}

#[test]
fn fillers_and_what_stands_behind_them() {
    let file = whole();
    let wrong = lined(&with_column(&sample().file(), 9, 94, b' '));
    assert_eq!(refused(&with_end(&wrong, 9, b"  ")), (5, 9, 0));
    assert_eq!(refused(&with_end(&wrong, 8, b"  ")), (26, 8, 0));
    assert_eq!(refused(&with_end(&wrong, 10, b"  ")), (5, 9, 0));
    let longer = [file.as_slice(), &file[..LINED_RECORD]].concat();
    assert_eq!(refused(&longer), (4, 11, 0));
    assert_eq!(refused(&with_end(&longer, 11, b"\n\r")), (4, 11, 0));
    assert_eq!(refused(&with_end(&longer, 10, b"\n\r")), (26, 10, 0));
    // Nines all the way are a filler without a line end.
    assert_eq!(refused(&with_end(&file, 10, b"99")), (26, 10, 0));
}

#[test]
fn rooms() {
    let file = whole();
    for room in [0, 1, 940, 959, 960, 961, 2_000] {
        check_room(room, &file, |lent| write_into(Way::Lined, WHOLE_TABLE, lent));
    }
    // A table holds no line ends, so its room is that of the other way.
    for (room, fits) in [(469, false), (470, true)] {
        assert_eq!(read_into(Way::Lined, &file, &mut vec![0; room]).is_ok(), fits);
        assert_eq!(read_into(Way::Plain, &sample().file(), &mut vec![0; room]).is_ok(), fits);
    }
}

#[test]
fn altering_and_the_addendum() {
    let mut file = whole();
    assert_eq!(addendum(Way::Lined, &file, 1), Ok((0, 0)));
    assert_eq!(addendum(Way::Lined, &file, 2), Ok((4 * 96 + 3, 80)));
    assert!(file[4 * 96 + 3..].starts_with(b"REIMBURSEMENT"));
    assert_eq!(parts(addendum(Way::Lined, &file, 3).unwrap_err()), (25, 0, 0));
    assert_eq!(alter(Way::Lined, &mut file, 2, 2_551), Ok(1));
    let mut altered = sample();
    altered.batches[0].entries[1].amount = 2_551;
    assert_eq!(file, altered.lined_file());
    for (entry, amount, expected) in [(0, 1, (25, 0, 0)), (1, 0, (14, 3, 6))] {
        let before = file.clone();
        assert_eq!(parts(alter(Way::Lined, &mut file, entry, amount).unwrap_err()), expected);
        assert_eq!(file, before);
    }
    let mut wrong = with_end(&file, 10, b"\n\r");
    assert_eq!(parts(alter(Way::Lined, &mut wrong, 0, 0).unwrap_err()), (26, 10, 0));
    assert_eq!(parts(addendum(Way::Lined, &wrong, 0).unwrap_err()), (26, 10, 0));
    assert_eq!(parts(read(Way::Lined, &wrong).unwrap_err()), (26, 10, 0));
}

#[test]
fn the_longest_file() {
    let nines = vec![b'9'; 96_000_096];
    assert_eq!(refused(&nines), (1, 0, 0));
    assert_eq!(refused(&nines[..96_000_001]), (1, 0, 0));
    assert_eq!(refused(&nines[..96_000_000]), (3, 1, 1));
    assert_eq!(refused(&nines[..95_999_999]), (1, 0, 0));
    assert_eq!(refused(&nines[..96]), (3, 1, 1));
    assert_eq!(refused(&nines[..94_000_000]), (1, 0, 0));
}

/// The same records, with line ends or without, are answered alike.
#[test]
fn twins() {
    let mut random = Random::new(26);
    for _ in 0..2_000 {
        let made = plan(&mut random, 3, 4);
        let mut file = made.file();
        for _ in 0..random.below(3) {
            file = random_damage(&mut random, &file);
        }
        if random.one_in(2) {
            file = resealed(&file);
        }
        twins_agree(&made, &file, random.below(6) as u64, random.between(0, 9_999_999_999));
    }
}

fn twins_agree(made: &Plan, file: &[u8], entry: u64, amount: u64) {
    let twin = lined(file);
    assert_eq!(check(Way::Plain, file), check(Way::Lined, &twin));
    assert_eq!(read(Way::Plain, file), read(Way::Lined, &twin));
    let table = made.table();
    assert_eq!(write(Way::Plain, &table).map(|file| lined(&file)), write(Way::Lined, &table));
    let (mut one, mut other) = (file.to_vec(), twin.clone());
    let altered = alter(Way::Plain, &mut one, entry, amount);
    assert_eq!(altered, alter(Way::Lined, &mut other, entry, amount));
    assert_eq!(lined(&one), other);
    let moved = |(start, length): (usize, usize)| (start / 94 * 96 + start % 94, length);
    let asked = addendum(Way::Plain, file, entry).map(moved);
    assert_eq!(asked, addendum(Way::Lined, &twin, entry));
}

/// Damage to line ends alone: the answer is that of the twin, or 26 before it.
#[test]
fn damaged_ends_of_random_files() {
    let mut random = Random::new(27);
    for _ in 0..2_000 {
        let whole = plan(&mut random, 3, 4).file();
        let file = random_damage(&mut random, &whole);
        let damaged = random_end_damage(&mut random, &lined(&file));
        if damaged.len() != lined(&file).len() {
            continue;
        }
        let ends = damaged.chunks_exact(LINED_RECORD).map(|record| &record[RECORD..] == b"\r\n");
        let first_wrong = ends.zip(1..).find(|(right, _)| !right).map(|(_, record)| record);
        let expected = match (check(Way::Plain, &file), first_wrong) {
            (Err(refusal), Some(wrong)) if before_end(refusal, wrong) => Err(refusal),
            (Err(refusal), None) => Err(refusal),
            (_, Some(record)) => Err(Refusal { number: 26, record, field: 0 }),
            (accepted, None) => accepted,
        };
        assert_eq!(check(Way::Lined, &damaged), expected);
    }
}

/// Whether a refusal of the records comes before the wrong line end of this one.
fn before_end(refusal: Refusal, record: u64) -> bool {
    refusal.number == 1 || refusal.record <= record
}
