//! Mending: the mended file, the list of changes, and the refusals in their order.

mod common;

use common::{in_way, parts, with_batches, Parts, BEFORE};
use generate::columns::{field_count, field_range, place, record_range};
use generate::controls::{self, controls, FILLER};
use generate::copies::{
    with_column, with_field, with_record_doubled, with_record_inserted, with_records_swapped,
    without_record,
};
use generate::damage::{field_values, random_damage};
use generate::lines::{lined, random_end_damage, with_end, LINED_RECORD, WRONG_ENDS};
use generate::remittances::in_ccd;
use generate::{big_file, near_limit, plan, sample, BigFile, Random, RECORD};
use independent::{check, mend, mend_into, Mended, Way};

const NO_CHANGE: &[u8; 21] = b"000000000000000000000";

/// The columns of all records of a file, back to back.
fn columns(way: Way, file: &[u8]) -> Vec<u8> {
    file.chunks(way.record_length()).flat_map(|record| &record[..RECORD]).copied().collect()
}

/// The number of the first record of this type.
fn first_of(record_type: u8, file: &[u8]) -> usize {
    let found = file.chunks(RECORD).position(|record| record[0] == record_type);
    found.expect("the file has such a record") + 1
}

/// The file up to its control, and then so many fillers.
fn with_fillers(file: &[u8], fillers: usize) -> Vec<u8> {
    controls::with_fillers(file, first_of(b'9', file), fillers)
}

/// Mends, and holds what is done in lent rooms against it: both just long enough or longer, either
/// one byte short; a refusal touches neither of them.
#[track_caller]
fn mended(way: Way, file: &[u8]) -> Result<Mended, Parts> {
    let answer = mend(way, file).map_err(parts);
    match &answer {
        Ok(found) => {
            let (length, listed) = (found.file.len(), found.changes.len());
            for (more, more_listed) in [(0, 0), (1, 0), (0, 1), (1_000, 1_000)] {
                let lent = lend(way, file, length + more, listed + more_listed);
                assert_eq!(lent.answer, Ok((length, listed)));
                assert_eq!(lent.mended, [&found.file[..], &vec![BEFORE; more]].concat());
                assert_eq!(lent.changes, [&found.changes[..], &vec![BEFORE; more_listed]].concat());
            }
            for (room, list_room) in [
                (length - 1, listed),
                (length, listed - 1),
                (length - 1, listed - 1),
                (length - 1, listed + 1_000),
                (length + 1_000, listed - 1),
                (0, listed),
                (length, 0),
                (0, 0),
            ] {
                lend(way, file, room, list_room).refused((23, 0, 0));
            }
        }
        Err(expected) => {
            for (room, list_room) in [(0, 0), (file.len() + 1_000, 10_000)] {
                lend(way, file, room, list_room).refused(*expected);
            }
        }
    }
    answer
}

/// What has become of lent rooms.
struct Lent {
    answer: Result<(usize, usize), Parts>,
    mended: Vec<u8>,
    changes: Vec<u8>,
}

fn lend(way: Way, file: &[u8], room: usize, list_room: usize) -> Lent {
    let (mut mended, mut changes) = (vec![BEFORE; room], vec![BEFORE; list_room]);
    let answer = mend_into(way, file, &mut mended, &mut changes).map_err(parts);
    Lent { answer, mended, changes }
}

impl Lent {
    #[track_caller]
    fn refused(&self, expected: Parts) {
        assert_eq!(self.answer, Err(expected));
        assert!(self.mended.iter().chain(&self.changes).all(|byte| *byte == BEFORE));
    }
}

/// In both ways the lent file becomes this one, and the list is what a look at every field finds.
#[track_caller]
fn becomes(lent: &[u8], whole: &[u8]) {
    let changes = differences(lent, whole);
    for way in Way::BOTH {
        let expected = Mended { file: in_way(way, whole), changes: changes.clone() };
        assert_eq!(mended(way, &in_way(way, lent)), Ok(expected));
    }
}

#[track_caller]
fn refuses(lent: &[u8], expected: Parts) {
    for way in Way::BOTH {
        assert_eq!(mended(way, &in_way(way, lent)).map(|_| ()), Err(expected));
    }
}

/// The list of changes, from the two files laid side by side.
fn differences(lent: &[u8], whole: &[u8]) -> Vec<u8> {
    let controls = controls(whole);
    let (file_control, batch_controls) = controls.split_last().unwrap();
    let section = |records: &[usize]| {
        let rows: Vec<Vec<u8>> =
            records.iter().flat_map(|&record| field_differences(lent, whole, record)).collect();
        [format!("{:07}", rows.len()).into_bytes(), rows.concat()].concat()
    };
    let [old, new] = [lent, whole].map(|file| file.len() / RECORD - file_control);
    let fillers = match (old, new) {
        _ if old == new => "0000000".to_string(),
        (0..=9, _) => format!("0000001{old}{new}"),
        _ => format!("0000001+{new}"),
    };
    [section(batch_controls), section(&[*file_control]), fillers.into_bytes()].concat()
}

fn field_differences(lent: &[u8], whole: &[u8], record: usize) -> Vec<Vec<u8>> {
    let fields = 1..=field_count(whole[record_range(record).start]);
    let row = |field: u8| {
        let place = place(whole, record, field);
        let (old, new) = (&lent[place.clone()], &whole[place]);
        (old != new).then(|| [format!("{record:07}{field:02}").as_bytes(), old, new].concat())
    };
    fields.filter_map(row).collect()
}

/// The rules once more, each control by a search of its own through all the records.
fn by_the_rules(way: Way, file: &[u8]) -> Result<Mended, Parts> {
    let size = way.record_length();
    if file.is_empty() || !file.len().is_multiple_of(size) {
        return Err((1, 0, 0));
    }
    let records: Vec<&[u8]> = file.chunks(size).collect();
    let begins = |index: usize, with: u8| records[index][0] == with;
    let control = (1..records.len()).find(|&index| begins(index, b'9') && begins(index - 1, b'8'));
    let kept = control.map_or(records.len(), |index| index + 1);
    let mut whole: Vec<Vec<u8>> = records[..kept].iter().map(|record| record.to_vec()).collect();
    for index in 0..kept {
        let header = (0..index).rev().find(|&before| begins(before, b'5'));
        if Some(index) == control {
            let text = file_control_of(&records[..index]);
            whole[index][1..RECORD].copy_from_slice(&text);
        } else if let (true, Some(header)) = (begins(index, b'8'), header) {
            let text = batch_control_of(records[header], &records[header + 1..index]);
            whole[index][1..RECORD].copy_from_slice(&text);
        }
    }
    while control.is_some() && !whole.len().is_multiple_of(10) {
        whole.push([&FILLER[..], way.line_end()].concat());
    }
    let whole = whole.concat();
    check(way, &whole).map_err(parts)?;
    match (kept..records.len()).find(|&index| records[index][..RECORD] != FILLER) {
        Some(index) => Err((4, index as u64 + 1, 0)),
        None => {
            let changes = differences(&columns(way, file), &columns(way, &whole));
            Ok(Mended { file: whole, changes })
        }
    }
}

/// Columns 2-94 of record 8, given its header and what stands between.
fn batch_control_of(header: &[u8], records: &[&[u8]]) -> Vec<u8> {
    let (count, sums) = sums_of(records);
    let mut text = header[1..4].to_vec();
    text.extend(format!("{count:06}{sums}").bytes());
    text.extend_from_slice(&header[40..50]);
    text.extend([b' '; 25]);
    text.extend_from_slice(&header[79..94]);
    text
}

/// Columns 2-94 of record 9, given all that stands before it.
fn file_control_of(records: &[&[u8]]) -> Vec<u8> {
    let batches = records.iter().filter(|record| record[0] == b'5').count();
    let blocks = records.len() / 10 + 1;
    let (count, sums) = sums_of(records);
    format!("{batches:06}{blocks:06}{count:08}{sums}{:39}", "").into_bytes()
}

/// How many entries and addenda; then hash, debit and credit, spelled.
fn sums_of(records: &[&[u8]]) -> (usize, String) {
    let count = records.iter().filter(|record| matches!(record[0], b'6' | b'7')).count();
    let sum = |field: u8, codes: &[u64]| -> u64 {
        let entries = records.iter().filter(|record| record[0] == b'6');
        let counted = entries.filter(|entry| codes.is_empty() || codes.contains(&number(entry, 2)));
        counted.map(|entry| number(entry, field)).sum()
    };
    let hash = sum(3, &[]) % 10_000_000_000;
    let debit = sum(6, &[27, 28, 29, 37, 38, 39]) % 1_000_000_000_000;
    let credit = sum(6, &[22, 23, 24, 32, 33, 34]) % 1_000_000_000_000;
    (count, format!("{hash:010}{debit:012}{credit:012}"))
}

fn number(entry: &[u8], field: u8) -> u64 {
    let text = &entry[field_range(b'6', field)];
    let digits = text.iter().all(u8::is_ascii_digit);
    if digits {
        String::from_utf8_lossy(text).parse().expect("no field has so many digits")
    } else {
        0
    }
}

/// Worked out by hand: a count too low in the batch control, a block too many in the file control,
/// and two fillers where three are due.
#[test]
fn the_sample_with_a_change_of_each_kind() {
    let whole = sample().file();
    let lent = with_field(&with_field(&whole, 6, 3, "000002"), 7, 3, "000002");
    let lent = &lent[..9 * RECORD];
    let changes = "0000001000000603000002000003\
                   0000001000000703000002000001\
                   000000123";
    for way in Way::BOTH {
        let found = mended(way, &in_way(way, lent)).unwrap();
        assert_eq!(found.file, in_way(way, &whole));
        assert_eq!(String::from_utf8(found.changes).unwrap(), changes);
    }
}

/// Worked out by hand: controls of which nothing but the type is left.
#[test]
fn the_sample_with_empty_controls() {
    let whole = sample().file();
    let mut lent = whole.clone();
    lent[5 * RECORD + 1..6 * RECORD].fill(b'.');
    lent[6 * RECORD + 1..7 * RECORD].fill(b'.');
    let row = |start: &str, new: &str| format!("{start}{}{new}", ".".repeat(new.len()));
    let changes = [
        "0000010".to_string(),
        row("000000602", "220"),
        row("000000603", "000003"),
        row("000000604", "0064414076"),
        row("000000605", "000000000000"),
        row("000000606", "000000012550"),
        row("000000607", "1123456789"),
        row("000000608", &" ".repeat(19)),
        row("000000609", &" ".repeat(6)),
        row("000000610", "32207038"),
        row("000000611", "0000001"),
        "0000007".to_string(),
        row("000000702", "000001"),
        row("000000703", "000001"),
        row("000000704", "00000003"),
        row("000000705", "0064414076"),
        row("000000706", "000000000000"),
        row("000000707", "000000012550"),
        row("000000708", &" ".repeat(39)),
        "0000000".to_string(),
    ];
    for way in Way::BOTH {
        let found = mended(way, &in_way(way, &lent)).unwrap();
        assert_eq!(found.file, in_way(way, &whole));
        assert_eq!(String::from_utf8(found.changes).unwrap(), changes.concat());
    }
}

#[test]
fn an_accepted_file_is_itself_and_nothing_is_listed() {
    let mut random = Random::new(90);
    let mut plans = vec![sample(), in_ccd(200, &[22, 24, 29, 34, 39, 38])];
    plans.extend((1..=10).map(|entries| with_batches(&[entries])));
    plans.extend([22, 27].map(|code| near_limit(code, 999_999_999_999, 3)));
    plans.extend((0..500).map(|_| plan(&mut random, 4, 6)));
    for plan in plans {
        for way in Way::BOTH {
            let file = in_way(way, &plan.file());
            assert!(check(way, &file).is_ok());
            let expected = Mended { file: file.clone(), changes: NO_CHANGE.to_vec() };
            assert_eq!(mended(way, &file), Ok(expected));
        }
    }
}

/// Every field of every control alone, with every value near its own.
#[test]
fn every_field_of_the_controls() {
    let whole = with_batches(&[2, 3]).file();
    for record in controls(&whole) {
        let record_type = whole[record_range(record).start];
        for field in 2..=field_count(record_type) {
            let now = &whole[place(&whole, record, field)];
            for value in field_values(record_type, field, now) {
                let lent = with_field(&whole, record, field, &value);
                let changes = differences(&lent, &whole);
                for way in Way::BOTH {
                    let found = mend(way, &in_way(way, &lent)).unwrap();
                    assert_eq!(found.file, in_way(way, &whole));
                    assert_eq!(found.changes, changes);
                }
                let rows = usize::from(value != now);
                assert_eq!(changes.len(), 21 + rows * (9 + 2 * value.len()));
            }
        }
    }
}

/// Puts other values into fields of the controls, or other bytes into all of one behind its type.
fn with_damaged_controls(random: &mut Random, file: &[u8]) -> Vec<u8> {
    let mut changed = file.to_vec();
    for record in controls(file) {
        let range = record_range(record);
        match random.below(8) {
            0 => changed[range.start + 1..range.end].fill(random.byte()),
            1 => changed[range.start + 1..range.end].fill_with(|| random.byte()),
            2..=3 => (),
            _ => changed = with_damaged_fields(random, &changed, record),
        }
    }
    changed
}

/// Puts other values into some fields of a record, its type not among them.
fn with_damaged_fields(random: &mut Random, file: &[u8], record: usize) -> Vec<u8> {
    let record_type = file[record_range(record).start];
    let mut changed = file.to_vec();
    for field in 2..=field_count(record_type) {
        if random.one_in(3) {
            let values = field_values(record_type, field, &file[place(file, record, field)]);
            changed = with_field(&changed, record, field, random.pick(&values));
        }
    }
    changed
}

#[test]
fn damaged_controls_of_random_files() {
    let mut random = Random::new(91);
    for _ in 0..1_000 {
        let whole = plan(&mut random, 4, 6).file();
        let lent = with_damaged_controls(&mut random, &whole);
        becomes(&lent, &whole);
        let fillers = random.below(24);
        becomes(&with_fillers(&lent, fillers), &whole);
    }
}

/// Every number of fillers that may be due, with as many there or others, ten and more among them.
#[test]
fn too_many_and_too_few_fillers() {
    let mut due = [false; 10];
    let plans = (1..=10).map(|entries| with_batches(&[entries])).chain([with_batches(&[1, 1, 1])]);
    for plan in plans {
        let whole = plan.file();
        let new = whole.len() / RECORD - first_of(b'9', &whole);
        due[new] = true;
        for old in 0..=25 {
            let lent = with_fillers(&whole, old);
            becomes(&lent, &whole);
            let sign = if old > 9 { "+".to_string() } else { old.to_string() };
            let row = if old == new { "0".to_string() } else { format!("1{sign}{new}") };
            let changes = format!("{:020}{row}", 0);
            assert_eq!(mend(Way::Plain, &lent).unwrap().changes, changes.as_bytes());
        }
    }
    assert_eq!(due, [true; 10]);
}

/// The file control is gone, and the first filler behind the last batch is filled in.
#[test]
fn a_filler_as_the_file_control() {
    let mut random = Random::new(92);
    let mut plans = vec![sample(), with_batches(&[5]), with_batches(&[4, 4])];
    plans.extend((0..300).map(|_| plan(&mut random, 4, 6)));
    for plan in plans {
        let whole = plan.file();
        let control = first_of(b'9', &whole);
        for fillers in [1, 2, 9, 10, 11, 12] {
            for file in [&whole, &with_damaged_controls(&mut random, &whole)] {
                let mut lent = file[..(control - 1) * RECORD].to_vec();
                lent.resize((control - 1 + fillers) * RECORD, b'9');
                becomes(&lent, &whole);
            }
        }
        // As it is when the record alone is taken out.
        let lent = without_record(&whole, control);
        if !control.is_multiple_of(10) {
            becomes(&lent, &whole);
        } else {
            refuses(&lent, (2, control as u64, 0));
        }
    }
    // By hand: two fillers are left behind the one that was filled in.
    let found = mend(Way::Plain, &without_record(&sample().file(), 7)).unwrap();
    assert_eq!(found.file, sample().file());
    let nines = |places: usize| "9".repeat(places);
    let changes = [
        "00000000000007".to_string(),
        format!("000000702{}000001", nines(6)),
        format!("000000703{}000001", nines(6)),
        format!("000000704{}00000003", nines(8)),
        format!("000000705{}0064414076", nines(10)),
        format!("000000706{}000000000000", nines(12)),
        format!("000000707{}000000012550", nines(12)),
        format!("000000708{}{}", nines(39), " ".repeat(39)),
        "000000123".to_string(),
    ];
    assert_eq!(String::from_utf8(found.changes).unwrap(), changes.concat());
}

/// Batch controls are mended all the same: what is refused is what is left.
#[test]
fn no_file_control() {
    let mut random = Random::new(93);
    for plan in [sample(), with_batches(&[5]), with_batches(&[1, 2, 3])] {
        let whole = plan.file();
        let control = first_of(b'9', &whole);
        let end = (control - 1) * RECORD;
        for _ in 0..20 {
            let lent = with_damaged_controls(&mut random, &whole);
            refuses(&lent[..end], (2, control as u64, 0));
            // What begins with another byte is no file control.
            for byte in [b'8', b'1', b'6', b' ', b'0', 0xB9] {
                let lent = with_column(&lent, control, 1, byte);
                refuses(&lent, (3, control as u64, 1));
            }
        }
    }
    // The 9s that there are stand behind other records.
    let whole = sample().file();
    for record in [1, 2, 3, 4, 5] {
        for nines in [&FILLER[..], &whole[record_range(7)]] {
            let lent = with_record_inserted(&whole[..6 * RECORD], record, nines);
            refuses(&lent, (3, record as u64, 1));
        }
    }
    refuses(&FILLER.repeat(10), (3, 1, 1));
}

/// A 9 that does not follow an 8 is not the one to be mended, and no filler begins behind it.
#[test]
fn the_first_9_that_follows_an_8() {
    let whole = sample().file();
    for record in [2, 3, 4, 5, 6] {
        refuses(&with_record_inserted(&whole, record, &FILLER), (3, record as u64, 1));
    }
    // Filler between batches ends the file there; the second batch stands behind it.
    let two = with_batches(&[2, 2]).file();
    let second = 6;
    assert_eq!(two[record_range(second).start], b'5');
    refuses(&with_record_inserted(&two, second, &FILLER), (4, 7, 0));
    refuses(&with_record_inserted(&two, second, &FILLER.repeat(2)), (4, 8, 0));
    let control = two[record_range(10)].to_vec();
    refuses(&with_record_inserted(&two, second, &control), (4, 7, 0));
    // Two file controls: the second one is not nines.
    refuses(&with_record_doubled(&whole, 7), (4, 8, 0));
    // A file behind another.
    refuses(&whole.repeat(2), (4, 11, 0));
}

/// An 8 before which no 5 stands stays; it is refused where it stands, or something is before it.
#[test]
fn a_batch_control_without_a_header() {
    let whole = sample().file();
    let without = |records: &[usize]| {
        records.iter().rev().fold(whole.clone(), |file, &record| without_record(&file, record))
    };
    refuses(&without(&[2]), (3, 2, 1));
    refuses(&without(&[2, 3, 4, 5]), (3, 2, 1));
    refuses(&without(&[1, 2, 3, 4, 5]), (3, 1, 1));
    refuses(&without(&[2, 3, 4, 5, 7]), (3, 2, 1));
    refuses(&with_record_inserted(&whole, 2, &whole[record_range(6)]), (3, 2, 1));
    refuses(&with_record_inserted(&whole, 1, &whole[record_range(6)]), (3, 1, 1));
    // A 9 follows it, and all else is behind that 9.
    let front = [&whole[record_range(6)], &FILLER].concat();
    refuses(&with_record_inserted(&whole, 2, &front), (3, 2, 1));
}

/// Records out of their order, with controls that would be right or wrong.
#[test]
fn batches_out_of_order() {
    let whole = sample().file();
    // A second control of the same batch; none at all; a batch without entries.
    refuses(&with_record_doubled(&whole, 6), (3, 7, 1));
    refuses(&without_record(&whole, 6), (3, 6, 1));
    let mut empty = whole.clone();
    empty.drain(2 * RECORD..5 * RECORD);
    refuses(&empty, (3, 3, 1));
    // A header twice: the nearest one counts, but it is refused before.
    refuses(&with_record_doubled(&whole, 2), (3, 3, 1));
    // An addendum too many.
    refuses(&with_record_doubled(&whole, 5), (3, 6, 1));
}

/// The nearest 5 fills the 8, and the sums begin there.
#[test]
fn each_batch_has_its_own_header_and_sums() {
    let mut plan = with_batches(&[1, 4, 2, 3]);
    for (batch, index) in plan.batches.iter_mut().zip(0..) {
        batch.company_id = format!("ID {index}");
        batch.class = if index % 2 == 0 { 200 } else { 220 };
        batch.originator += index;
        batch.number = 3 * index + 2;
    }
    let whole = plan.file();
    let [first, second, third, fourth, last] = controls(&whole)[..] else {
        unreachable!("four batches and the file")
    };
    // The controls change places, so that each is of another batch.
    let lent = with_records_swapped(&whole, first, fourth);
    becomes(&lent, &whole);
    becomes(&with_records_swapped(&lent, second, third), &whole);
    // All controls are those of the first batch.
    let mut lent = whole.clone();
    for record in [second, third, fourth] {
        lent.copy_within(record_range(first), record_range(record).start);
    }
    becomes(&lent, &whole);
    let found = mend(Way::Plain, &lent).unwrap();
    assert_eq!(&found.changes[found.changes.len() - 14..], b"00000000000000");
    let mut lent = with_column(&lent, last, 94, b'X');
    becomes(&lent, &whole);
    lent[record_range(last)].fill(b'9');
    becomes(&lent, &whole);
}

/// A record put in or taken out with its batch left as it was: what clients' edits leave behind.
#[test]
fn entries_deleted_by_hand() {
    let mut random = Random::new(94);
    for _ in 0..300 {
        let plan = plan(&mut random, 3, 5);
        let gone = random.between(1, plan.entry_count() as u64);
        let rest = plan.without(&[gone]);
        if rest.batches.len() < plan.batches.len() {
            continue;
        }
        let file = plan.file();
        let entries = file.chunks(RECORD).zip(1..).filter(|(record, _)| record[0] == b'6');
        let record = entries.map(|(_, number)| number).nth(gone as usize - 1).unwrap();
        let mut lent = without_record(&file, record);
        if lent[record_range(record).start] == b'7' {
            lent = without_record(&lent, record);
        }
        becomes(&lent, &rest.file());
    }
}

/// Whatever was wrong in other records is refused as in the file that is in order otherwise.
#[test]
fn other_records_are_not_mended() {
    let whole = sample().file();
    for (record, field, text, number) in [
        (1, 2, "02", 5),
        (1, 13, " X      ", 9),
        (2, 2, "ABC", 6),
        (2, 2, "300", 11),
        (2, 5, "          ", 8),
        (2, 12, "3220703A", 6),
        (2, 13, "0000000", 17),
        (3, 2, "99", 11),
        (3, 2, "2A", 6),
        (3, 2, "27", 15),
        (3, 3, "3220703X", 6),
        (3, 4, "0", 12),
        (3, 6, "00000000-1", 6),
        (3, 6, "0000000000", 14),
        (3, 11, "322070380000000", 16),
        (4, 10, "0", 3),
        (5, 3, &"a".repeat(80), 7),
        (5, 5, "0000001", 16),
    ] {
        let place = if number == 3 { (3, 5, 1) } else { (number, record as u64, field) };
        let lent = with_field(&whole, record, field, text);
        refuses(&lent, place);
        // Wrong controls, fillers and what else stands behind the 9 come later.
        let wrong = with_field(&with_field(&lent, 6, 2, "999"), 7, 2, "A     ");
        refuses(&wrong, place);
        refuses(&with_fillers(&wrong, 0), place);
        refuses(&with_column(&wrong, 9, 50, b'8'), place);
        refuses(&[&wrong[..], &whole[..]].concat(), place);
        refuses(&wrong[..6 * RECORD], place);
    }
}

/// A value within the rules in another record is one that the controls follow.
#[test]
fn controls_follow_other_records() {
    let mut plan = with_batches(&[2, 3]);
    let before = plan.file();
    plan.batches[1].entries[2].amount = 9_999_999_999;
    plan.batches[1].entries[0].routing = 5_300_021;
    plan.batches[0].company_id = "NEW".into();
    plan.batches[0].class = 200;
    plan.batches[0].entries[1].code = 37;
    let whole = plan.file();
    let mut lent = whole.clone();
    for record in controls(&whole) {
        lent[record_range(record)].copy_from_slice(&before[record_range(record)]);
    }
    assert!(check(Way::Plain, &lent).is_err());
    becomes(&lent, &whole);
}

/// Sums up to the limit are spelled; one cent more is refused, of a batch at its control and of the
/// file at its own.
#[test]
fn totals_at_their_limit() {
    let mut random = Random::new(95);
    for (code, batch_field) in [(27, 5), (22, 6)] {
        for batches in [1, 2, 3] {
            let whole = near_limit(code, 999_999_999_999, batches).file();
            becomes(&with_damaged_controls(&mut random, &whole), &whole);
            let over = near_limit(code, 1_000_000_000_000, batches).file();
            let over_controls = controls(&over);
            let expected = match batches {
                1 => (20, over_controls[0] as u64, batch_field),
                _ => (20, *over_controls.last().unwrap() as u64, batch_field + 1),
            };
            refuses(&over, expected);
            let lent = with_damaged_controls(&mut random, &over);
            refuses(&lent, expected);
            refuses(&with_fillers(&lent, 17), expected);
        }
    }
}

#[test]
fn a_hash_cut_to_ten_digits() {
    let mut plan = with_batches(&[251, 2]);
    for entry in plan.batches.iter_mut().flat_map(|batch| &mut batch.entries) {
        entry.routing = 39_999_999;
    }
    let whole = plan.file();
    let control = controls(&whole)[0];
    assert_eq!(&whole[place(&whole, control, 4)], b"0039999749");
    becomes(&with_field(&whole, control, 4, "9999999999"), &whole);
    becomes(&with_field(&whole, first_of(b'9', &whole), 5, "0000000000"), &whole);
}

#[test]
fn the_lent_files_length() {
    let whole = sample().file();
    for way in Way::BOTH {
        let file = in_way(way, &whole);
        for length in 0..file.len() {
            let expected = match length / way.record_length() {
                _ if length % way.record_length() > 0 => Some((1, 0, 0)),
                0 => Some((1, 0, 0)),
                records @ 1..=6 => Some((2, records as u64 + 1, 0)),
                // The fillers are made up for.
                _ => None,
            };
            let found = mended(way, &file[..length]).map(|found| found.file);
            assert_eq!(found, expected.map_or(Ok(file.clone()), Err));
        }
        for more in [1, 2, 93, 95] {
            let lent = [&file[..], &vec![b'9'; more]].concat();
            assert_eq!(mended(way, &lent), Err((1, 0, 0)));
        }
    }
    // Nothing guesses the way.
    assert_eq!(mended(Way::Lined, &whole), Err((1, 0, 0)));
    assert_eq!(mended(Way::Plain, &lined(&whole)), Err((1, 0, 0)));
}

/// Too long is too long, even if all but ten records are fillers that would go.
#[test]
fn the_longest_file() {
    let whole = sample().file();
    let mut lent = whole.clone();
    lent.resize(94_000_094, b'9');
    assert_eq!(mend(Way::Plain, &lent).map_err(parts), Err((1, 0, 0)));
    lent.truncate(94_000_000);
    let changes = b"000000000000000000001+3".to_vec();
    assert_eq!(mend(Way::Plain, &lent), Ok(Mended { file: whole, changes }));
    lent[93_999_999] = b'8';
    assert_eq!(mend(Way::Plain, &lent).map_err(parts), Err((4, 1_000_000, 0)));
}

/// The first record behind the 9 that is not nines, in the block or behind it.
#[test]
fn what_stands_behind_the_file_control() {
    let mut random = Random::new(96);
    for plan in [sample(), with_batches(&[1]), with_batches(&[5])] {
        let whole = plan.file();
        let control = first_of(b'9', &whole);
        for fillers in [1, 3, 9, 12, 14] {
            let lent = with_fillers(&with_damaged_controls(&mut random, &whole), fillers);
            for record in control + 1..=control + fillers {
                for column in [1, 2, 47, 93, 94] {
                    for byte in [b'8', b':', b' ', 0, 0xFF] {
                        let lent = with_column(&lent, record, column, byte);
                        refuses(&lent, (4, record as u64, 0));
                    }
                }
                let first = with_column(&lent, record, 1, b'1');
                let last = control + fillers;
                refuses(&with_column(&first, last, 94, b'0'), (4, record as u64, 0));
            }
        }
    }
}

/// The length, then the mended file's refusals, then the 4, and last the room.
#[test]
fn refusals_in_their_order() {
    let whole = sample().file();
    let behind = with_column(&whole, 8, 1, b'1');
    let entry_too = with_field(&behind, 4, 6, "0000000000");
    for way in Way::BOTH {
        let [whole, behind, entry_too] =
            [&whole, &behind, &entry_too].map(|file| in_way(way, file));
        let length_too = entry_too[1..].to_vec();
        for (room, list_room) in [(0, 0), (0, 21), (939, 0), (939, 20), (960, 1_000)] {
            lend(way, &length_too, room, list_room).refused((1, 0, 0));
            lend(way, &entry_too, room, list_room).refused((14, 4, 6));
            lend(way, &behind, room, list_room).refused((4, 8, 0));
        }
        lend(way, &whole, whole.len() - 1, 21).refused((23, 0, 0));
        lend(way, &whole, whole.len(), 20).refused((23, 0, 0));
        assert_eq!(lend(way, &whole, whole.len(), 21).answer, Ok((whole.len(), 21)));
    }
}

/// The room for the file is that of the mended one, longer or shorter than the lent.
#[test]
fn room_for_the_mended_file() {
    let whole = sample().file();
    for fillers in [0, 30] {
        let lent = with_fillers(&whole, fillers);
        for way in Way::BOTH {
            let file = in_way(way, &lent);
            let length = 10 * way.record_length();
            assert_eq!(lend(way, &file, length, 23).answer, Ok((length, 23)));
            lend(way, &file, length - 1, 23).refused((23, 0, 0));
            lend(way, &file, length, 22).refused((23, 0, 0));
        }
    }
}

/// Fillers get the way's line end and are not listed for it; all other line ends stay.
#[test]
fn line_ends() {
    for plan in [sample(), with_batches(&[1]), with_batches(&[4, 3])] {
        let whole = plan.file();
        let control = first_of(b'9', &whole);
        let unchanged = Mended { file: lined(&whole), changes: NO_CHANGE.to_vec() };
        for end in WRONG_ENDS {
            for record in 1..=control {
                let lent = with_end(&lined(&whole), record, end);
                assert_eq!(mended(Way::Lined, &lent), Err((26, record as u64, 0)));
                // It comes before what stands behind the 9.
                let lent = [lent, vec![b' '; LINED_RECORD]].concat();
                assert_eq!(mended(Way::Lined, &lent), Err((26, record as u64, 0)));
            }
            let mut lent = lined(&whole);
            for record in control + 1..=whole.len() / RECORD {
                lent = with_end(&lent, record, end);
                assert_eq!(mended(Way::Lined, &lent).as_ref(), Ok(&unchanged));
            }
            // Fillers too many, all of them with a wrong line end.
            let more = [&FILLER[..], end].concat().repeat(9);
            let old = whole.len() / RECORD - control + 9;
            let sign = if old > 9 { "+".to_string() } else { old.to_string() };
            let changes = format!("{:020}1{sign}{}", 0, old - 9).into_bytes();
            let expected = Mended { file: lined(&whole), changes };
            assert_eq!(mended(Way::Lined, &[lent, more].concat()), Ok(expected));
        }
    }
}

/// The filler that becomes the file control is no filler any more.
#[test]
fn line_end_of_a_filler_as_the_file_control() {
    let whole = sample().file();
    let lent = lined(&without_record(&whole, 7));
    assert_eq!(mended(Way::Lined, &lent).unwrap().file, lined(&whole));
    for end in WRONG_ENDS {
        assert_eq!(mended(Way::Lined, &with_end(&lent, 7, end)), Err((26, 7, 0)));
        let found = mended(Way::Lined, &with_end(&lent, 8, end));
        assert_eq!(found, mended(Way::Lined, &lent));
    }
}

/// A wrong record behind the 9 is named whatever its line end; a wrong line end is no such fault.
#[test]
fn line_ends_behind_the_file_control() {
    let lent = lined(&with_column(&sample().file(), 9, 94, b' '));
    for end in WRONG_ENDS {
        for record in [8, 9, 10] {
            assert_eq!(mended(Way::Lined, &with_end(&lent, record, end)), Err((4, 9, 0)));
        }
    }
}

/// Old text is listed as it stood, whatever its bytes.
#[test]
fn any_byte_in_a_control() {
    let whole = sample().file();
    for byte in 0..=255 {
        let mut lent = whole.clone();
        for record in [6, 7] {
            let range = record_range(record);
            lent[range.start + 1..range.end].fill(byte);
        }
        becomes(&lent, &whole);
    }
}

#[test]
fn mended_once_is_mended() {
    let mut random = Random::new(97);
    for _ in 0..300 {
        let whole = plan(&mut random, 3, 4).file();
        let lent = with_fillers(&with_damaged_controls(&mut random, &whole), random.below(12));
        for way in Way::BOTH {
            let once = mended(way, &in_way(way, &lent)).unwrap();
            let twice = mended(way, &once.file).unwrap();
            assert_eq!(twice, Mended { file: once.file, changes: NO_CHANGE.to_vec() });
        }
    }
}

/// Any damage at all: the answer is that of the rules taken one by one.
#[test]
fn damaged_files() {
    let mut random = Random::new(98);
    let mut granted = 0;
    let mut refused = [0; 30];
    for _ in 0..8_000 {
        let mut file = plan(&mut random, 3, 4).file();
        if random.one_in(2) {
            file = with_damaged_controls(&mut random, &file);
        }
        if random.one_in(3) {
            file = with_fillers(&file, random.below(14));
        }
        for _ in 0..random.below(3) {
            file = random_damage(&mut random, &file);
        }
        let way = *random.pick(&Way::BOTH);
        file = in_way(way, &file);
        if way == Way::Lined && random.one_in(4) {
            file = random_end_damage(&mut random, &file);
        }
        let found = mended(way, &file);
        assert_eq!(found, by_the_rules(way, &file));
        match found {
            Ok(_) => granted += 1,
            Err((number, _, _)) => refused[usize::from(number)] += 1,
        }
    }
    let numbers = refused.iter().filter(|count| **count > 0).count();
    assert!(granted > 2_000 && numbers > 15, "{granted} {refused:?}");
    assert!([1, 2, 3, 4, 26].iter().all(|&number: &usize| refused[number] > 20), "{refused:?}");
    // Of the control's own refusals only the sum that is too large can be left.
    assert!([18, 19, 21, 22].iter().all(|&number: &usize| refused[number] == 0), "{refused:?}");
}

/// Records one behind the other, mostly such as may follow.
fn random_records(random: &mut Random, records: &[&[u8]]) -> Vec<u8> {
    let mut file = Vec::new();
    let mut due = b'1';
    for _ in 0..1 + random.below(9) {
        let fit: Vec<&[u8]> = records.iter().copied().filter(|record| record[0] == due).collect();
        let among = if random.one_in(8) { records } else { &fit };
        let next = *random.pick(among);
        due = match next[0] {
            b'1' => b'5',
            b'5' => b'6',
            b'6' if next[78] == b'1' => b'7',
            b'6' | b'7' => *random.pick(b"688"),
            b'8' => *random.pick(b"599"),
            _ => b'9',
        };
        file.extend_from_slice(next);
    }
    file
}

/// Any order of records at all.
#[test]
fn records_in_any_order() {
    let mut random = Random::new(99);
    let whole = with_batches(&[1, 3]).file();
    let strange = [b'4'; RECORD];
    let records: Vec<&[u8]> = whole.chunks(RECORD).chain([&strange[..]]).collect();
    let mut granted = 0;
    for _ in 0..20_000 {
        let file = random_records(&mut random, &records);
        for way in Way::BOTH {
            let lent = in_way(way, &file);
            let found = mended(way, &lent);
            granted += u32::from(found.is_ok());
            assert_eq!(found, by_the_rules(way, &lent));
        }
    }
    assert!(granted > 1_000, "{granted}");
}

/// As many batches as a file can have, and nothing left of any control.
#[test]
fn a_million_records() {
    let whole = big_file(&BigFile { records: 1_000_000, entries_in_batch: 1, addendum_every: 0 });
    let mut lent = whole.clone();
    let mut batches = 0;
    for record in lent.chunks_mut(RECORD).filter(|record| matches!(record[0], b'8' | b'9')) {
        batches += u32::from(record[0] == b'8');
        record[1..].fill(b'?');
    }
    let found = mend(Way::Plain, &lent).unwrap();
    assert!(found.file == whole);
    assert_eq!(batches, 333_332);
    assert!(found.changes.starts_with(b"333332000000040"));
    // Rows of ten fields, then of seven; no filler is due.
    let (in_batch, in_file) = (10 * 9 + 2 * 93, 7 * 9 + 2 * 93);
    assert_eq!(found.changes.len(), 333_332 * in_batch + in_file + 21);
    assert!(found.changes.ends_with(b"0000000"));
}
