//! Mending: the same answers, and the same bytes in both rooms. A file that is spoilt in nothing but
//! its controls and fillers is itself again, and the list names every change and no other.

use crate::guard::{Guarded, PATTERN};
use crate::run::Run;
use crate::tally::{Outcome, Tally};
use crate::ways;
use ach::boundary::ach_mend;
use ach::fields::record_type;
use ach::{Change, Changes, Fillers};
use generate::columns::{field_count, place};
use generate::controls::{controls, random_control_damage, with_fillers, without_controls, FILLER};
use generate::copies::{
    with_column, with_field, with_record_doubled, with_record_inserted, with_records_swapped,
    without_record,
};
use generate::damage::{field_values, random_damage, BORDER_BYTES};
use generate::lines::{lined, random_end_damage, with_end, SHIFTED_ENDS, WRONG_ENDS};
use generate::{big_file, near_limit, plan, sample, BigFile, Plan, Random, RECORD};
use independent::{Mended, Way};
use std::ptr::null_mut;

/// These come behind some 1,500,000 that are not random.
const DEFAULT_CASES: u64 = 300_000;
const MOST_RECORDS: usize = 1_000_000;

pub fn compare(run: &Run, tally: &mut Tally) {
    let cases = run.cases.unwrap_or(DEFAULT_CASES);
    let mut random = Random::new(run.seed);
    bad_inputs(tally);
    let mut bases = vec![sample()];
    bases.extend((0..3).map(|_| plan(&mut random, 3, 2)));
    for file in bases.iter().map(Plan::file) {
        every_field(tally, &file);
        every_record(tally, &file);
        every_line_end(tally, &file);
    }
    fillers(tally);
    many_fillers(tally);
    controls_missing_or_twice(tally);
    limits(tally);
    biggest_files(tally);
    let end = tally.cases() + cases;
    while tally.cases() < end {
        spoilt_files(tally, &mut random);
        damaged_files(tally, &mut random);
        noise(tally, &mut random);
    }
}

/// What stands around the rooms and in them before a call.
const EMPTY: u8 = 0xA5;
const GUARD: usize = 128;

/// The two rooms, in one stretch of memory that is compared whole.
struct Rooms {
    memory: Vec<u8>,
    mended: usize,
    changes: usize,
}

impl Rooms {
    fn new(mended: usize, changes: usize) -> Self {
        Rooms { memory: vec![EMPTY; 3 * GUARD + mended + changes], mended, changes }
    }

    /// The room for the mended file, and that for the changes.
    fn lend(&mut self) -> (&mut [u8], &mut [u8]) {
        let (front, back) = self.memory.split_at_mut(GUARD + self.mended);
        (&mut front[GUARD..], &mut back[GUARD..][..self.changes])
    }
}

/// To nothing the pointer may be null.
fn pointer(room: &mut [u8]) -> *mut u8 {
    if room.is_empty() {
        null_mut()
    } else {
        room.as_mut_ptr()
    }
}

/// Puts a file to both sides with so much room: the same answer, the same lengths, and the same bytes
/// in both rooms and around them. The file is only read.
fn in_rooms(tally: &mut Tally, about: &str, way: Way, file: &[u8], sizes: (usize, usize)) {
    // Every call counts two cases, and all numbers of the second way are to take turns.
    let number = ways::number(way, tally.cases() / 2);
    let mut lent = Guarded::new(file, b'8');
    let mut rooms = Rooms::new(sizes.0, sizes.1);
    let (mended, changes) = rooms.lend();
    let bytes = if file.is_empty() { null_mut() } else { lent.pointer() };
    let [mut length, mut changes_length] = [PATTERN; 2];
    // SAFETY: the pointers are to as many bytes as the call is told, and apart.
    let answer = unsafe {
        ach_mend(
            number,
            bytes,
            file.len(),
            pointer(mended),
            mended.len(),
            &mut length,
            pointer(changes),
            changes.len(),
            &mut changes_length,
        )
    };
    let given = Outcome::new(answer, [length, changes_length], &rooms.memory);

    let mut due = Rooms::new(sizes.0, sizes.1);
    let (mended, changes) = due.lend();
    let expected = match independent::mend_into(way, file, mended, changes) {
        Ok((one, other)) => Outcome::new(0, [one as u64, other as u64], &due.memory),
        Err(refusal) => Outcome::refused(refusal, &due.memory),
    };
    tally.compare(&format!("{about}, {way:?}, rooms {sizes:?}"), file, given, expected);
    tally.holds("the file is only read", file, lent.is_whole() && lent.content() == file);
}

/// Puts a file to both sides in rooms that suffice and in ones that do not, and tells what the library
/// makes of it.
fn in_way(tally: &mut Tally, about: &str, way: Way, file: &[u8]) -> Option<Mended> {
    let turn = tally.cases() / 2;
    let Ok(due) = independent::mend(way, file) else {
        let sizes = [(0, 0), (file.len() + 1_000, file.len() + 1_000)];
        in_rooms(tally, about, way, file, sizes[turn as usize % 2]);
        return None;
    };
    let (need, list) = (due.file.len(), due.changes.len());
    let enough = [(need, list), (need + 1, list), (need, list + 1), (2 * need, 2 * list)];
    let short =
        [(need - 1, list), (need, list - 1), (need - 1, list - 1), (0, 2 * list), (need, 0)];
    in_rooms(tally, about, way, file, enough[turn as usize % enough.len()]);
    in_rooms(tally, about, way, file, short[turn as usize % short.len()]);
    let given = ach::mend(ways::of_library(way), file).ok()?;
    let given = Mended { file: given.file, changes: given.list };
    tally.holds("every change is listed", file, is_listed(way, file, &given));
    tally.holds("mended, it stays", file, stays(way, &given));
    Some(given)
}

/// A mended file is accepted, and mended again it is the same with nothing to list.
fn stays(way: Way, mended: &Mended) -> bool {
    let way = ways::of_library(way);
    let again = ach::mend(way, &mended.file);
    ach::check(way, &mended.file).is_ok()
        && again.is_ok_and(|again| again.file == mended.file && again.list == [b'0'; 21])
}

/// The lent file with the listed texts in the listed fields, each of them another one than before, and
/// with the number of fillers that is listed, is the mended one.
fn is_listed(way: Way, file: &[u8], mended: &Mended) -> bool {
    let Some(changes) = Changes::of(&mended.changes) else {
        return false;
    };
    let mut renewed = file.to_vec();
    let fields = [(b'8', &changes.batch_controls), (b'9', &changes.file_control)];
    let applied = fields.iter().all(|(digit, listed)| {
        let places: Vec<(u64, u8)> = listed.iter().map(|one| (one.record, one.field)).collect();
        places.is_sorted_by(|one, next| one < next)
            && listed.iter().all(|change| apply(way, &mut renewed, *digit, change))
    });
    let control = position_of_control(way, &mended.file);
    let behind = |file: &[u8]| (file.len() / way.record_length()).checked_sub(control);
    let (Some(old), Some(new)) = (behind(file), behind(&mended.file)) else {
        return false;
    };
    let counted = (old != new)
        .then_some(Fillers { old: u8::try_from(old).ok().filter(|old| *old <= 9), new: new as u8 });
    renewed.truncate(control * way.record_length());
    applied && changes.fillers == counted && mended.file.starts_with(&renewed)
}

/// How many records an accepted file has up to its control and with it.
fn position_of_control(way: Way, file: &[u8]) -> usize {
    let records = file.chunks_exact(way.record_length());
    records.take_while(|record| record[0] != b'9').count() + 1
}

/// Puts the new text where the old one has to stand, in a control of this type.
fn apply(way: Way, file: &mut [u8], digit: u8, change: &Change) -> bool {
    let before = usize::try_from(change.record).ok().and_then(|record| record.checked_sub(1));
    let record = before.and_then(|before| file.chunks_mut(way.record_length()).nth(before));
    let field = record_type(digit).and_then(|known| known.field(change.field));
    let (Some(record), Some(field)) = (record, field) else {
        return false;
    };
    let text = &mut record[field.first - 1..field.last];
    let fits = text == change.old && change.old != change.new;
    text.copy_from_slice(change.new);
    fits && record[0] == digit
}

/// Puts a file without line ends to both sides in both ways, which have to be answered alike.
fn both(tally: &mut Tally, about: &str, file: &[u8]) -> Option<Mended> {
    let plain = in_way(tally, about, Way::Plain, file);
    let with_ends = in_way(tally, about, Way::Lined, &lined(file));
    let of_twin = |one: &Mended| Mended { file: lined(&one.file), changes: one.changes.clone() };
    tally.holds("the same in both ways", file, plain.as_ref().map(of_twin) == with_ends);
    plain
}

/// What is spoilt in nothing but controls and fillers has to be the file again, whatever either side
/// says.
fn cured(tally: &mut Tally, about: &str, file: &[u8], spoilt: &[u8]) {
    let mended = both(tally, about, spoilt);
    tally.holds("cured", spoilt, mended.is_some_and(|mended| mended.file == file));
}

/// Nothing, the front parts of a file, one byte throughout, and a file that has the other way.
fn bad_inputs(tally: &mut Tally) {
    for (way, other) in [(Way::Plain, Way::Lined), (Way::Lined, Way::Plain)] {
        let file = ways::in_way(way, &sample().file());
        for cut in 0..=file.len() {
            in_way(tally, "a file cut", way, &file[..cut]);
        }
        in_way(tally, "the other way", other, &file);
        // The last is a whole number of records in both ways.
        for length in [1, 93, 94, 95, 96, 97, 188, 192, 940, 960, 4_512] {
            for byte in 0..=255 {
                in_way(tally, "one byte throughout", way, &vec![byte; length]);
            }
        }
        for record in file.chunks(way.record_length()) {
            in_way(tally, "one record", way, record);
            in_way(tally, "one record ten times", way, &record.repeat(10));
        }
    }
}

/// Every field of every record with values on both sides of its rules. Those of controls are cured.
fn every_field(tally: &mut Tally, base: &[u8]) {
    for record in 1..=base.len() / RECORD {
        let digit = base[(record - 1) * RECORD];
        let is_control = controls(base).contains(&record);
        for field in 1..=field_count(digit) {
            for value in field_values(digit, field, &base[place(base, record, field)]) {
                let about = format!("record {record}, field {field}");
                let file = with_field(base, record, field, &value);
                if is_control && field > 1 {
                    cured(tally, &about, base, &file);
                } else {
                    both(tally, &about, &file);
                }
            }
        }
    }
}

/// Records deleted, doubled, of every type, put in before others, and swapped.
fn every_record(tally: &mut Tally, base: &[u8]) {
    let records = base.len() / RECORD;
    for one in 1..=records {
        both(tally, "a record deleted", &without_record(base, one));
        both(tally, "a record doubled", &with_record_doubled(base, one));
        for digit in 0..=255 {
            both(tally, "a record of another type", &with_column(base, one, 1, digit));
        }
        for other in 1..=records {
            let copy = &base[(other - 1) * RECORD..other * RECORD];
            both(tally, "a record inserted", &with_record_inserted(base, one, copy));
            both(tally, "records swapped", &with_records_swapped(base, one, other));
            let fewer = without_record(&without_record(base, one), other.max(2) - 1);
            both(tally, "records deleted", &fewer);
        }
    }
}

/// The line end of every record damaged: those of fillers are written afresh.
fn every_line_end(tally: &mut Tally, base: &[u8]) {
    let spoilt = lined(&without_controls(base, b'#'));
    let fillers = position_of_control(Way::Plain, base) + 1..=base.len() / RECORD;
    for record in 1..=base.len() / RECORD {
        for end in WRONG_ENDS {
            let file = with_end(&lined(base), record, end);
            let mended = in_way(tally, "a wrong line end", Way::Lined, &file);
            let is_cured = mended.is_some_and(|mended| mended.file == lined(base));
            tally.holds("cured in fillers alone", &file, is_cured == fillers.contains(&record));
            let file = with_end(&spoilt, record, end);
            in_way(tally, "a wrong line end, and wrong controls", Way::Lined, &file);
        }
        for end in SHIFTED_ENDS {
            let file = with_end(&lined(base), record, end);
            in_way(tally, "a line end too short or too long", Way::Lined, &file);
        }
    }
}

/// A file whose records before the fillers have every number from five on.
fn of_records(records: usize) -> Vec<u8> {
    let mut plan = sample();
    let model = plan.batches[0].entries[0].clone();
    let entries = (1..=records as u32 - 4).map(|trace| generate::Entry { trace, ..model.clone() });
    plan.batches[0].entries = entries.collect();
    plan.file()
}

/// Every number of fillers that is due, and every one that is there instead, with the controls right
/// and wrong; and one of them replaced, or something else behind the last.
fn fillers(tally: &mut Tally) {
    for records in 5..=25 {
        let file = of_records(records);
        for there in 0..=31 {
            let filled = with_fillers(&file, records, there);
            cured(tally, "fillers too few or too many", &file, &filled);
            let spoilt = without_controls(&filled, b'9');
            cured(tally, "fillers too few or too many, and controls", &file, &spoilt);
            if there > 0 {
                for (column, byte) in [(1, b'8'), (1, b' '), (2, b'8'), (47, b'0'), (94, b' ')] {
                    let wrong = with_column(&filled, records + there, column, byte);
                    both(tally, "a filler that is none", &wrong);
                    let first = with_column(&wrong, records + 1, column, byte);
                    both(tally, "two fillers that are none", &first);
                }
            }
            for record in 1..=records.min(6) {
                let copy = &file[(record - 1) * RECORD..record * RECORD];
                both(tally, "a record behind the fillers", &[&filled, copy].concat());
            }
        }
    }
}

/// So many more than are due that a count in one byte or two would begin anew.
fn many_fillers(tally: &mut Tally) {
    for (records, due) in [(5, 5), (10, 0)] {
        let file = of_records(records);
        for more in [256, 65_536] {
            let filled = with_fillers(&file, records, due + more);
            cured(tally, "many fillers", &file, &filled);
        }
    }
}

/// No file control, two of them, and batch controls without their header, in a file with right
/// controls and with wrong ones.
fn controls_missing_or_twice(tally: &mut Tally) {
    let mut plan = sample();
    let second = generate::Batch { number: 2, ..plan.batches[0].clone() };
    plan.batches.push(second);
    let file = plan.file();
    let control = position_of_control(Way::Plain, &file);
    for base in [file.clone(), without_controls(&file, b'9'), without_controls(&file, b' ')] {
        for there in 0..=12 {
            let filled = with_fillers(&base, control, there);
            let without = without_record(&filled, control);
            let mended = both(tally, "no file control", &without);
            let is_cured = mended.is_some_and(|mended| mended.file == file);
            tally.holds("the first filler for the file control", &file, is_cured == (there > 0));
            both(tally, "two file controls", &with_record_doubled(&filled, control));
        }
        for record in 1..=control {
            for kept in 1..=record {
                let gone = (kept..record).fold(base.clone(), |file, _| without_record(&file, kept));
                both(tally, "records gone in front of a control", &gone);
            }
            for digit in [b'8', b'9'] {
                let mut early = [b'#'; RECORD];
                early[0] = digit;
                both(tally, "a control too early", &with_record_inserted(&base, record, &early));
                let pair = [early, FILLER].concat();
                both(tally, "two controls too early", &with_record_inserted(&base, record, &pair));
            }
        }
    }
}

/// Totals on both sides of their limit, and hashes that are cut to ten digits, with nothing right in
/// any control.
fn limits(tally: &mut Tally) {
    for code in [22, 27, 32, 37] {
        for batches in [1, 2, 3] {
            for beyond in [0, 98, 99, 100, 101, 5_000_000_000, 10_000_000_000] {
                let plan = near_limit(code, 999_999_999_900 + beyond, batches);
                let (file, in_order) = (plan.file(), beyond <= 99);
                let mended = both(tally, "a total near its limit", &without_controls(&file, b' '));
                let is_cured = mended.is_some_and(|mended| mended.file == file);
                tally.holds("cured up to the limit", &file, is_cured == in_order);
            }
        }
    }
    for last in [0, 249, 250, 251, 39_999_999] {
        let mut plan = sample();
        let model = generate::Entry { routing: 39_999_999, ..plan.batches[0].entries[0].clone() };
        let entries = (1..=251).map(|trace| generate::Entry { trace, ..model.clone() });
        plan.batches[0].entries = entries.collect();
        plan.batches[0].entries[250].routing = last;
        let file = plan.file();
        cured(tally, "a hash near its limit", &file, &without_controls(&file, b'0'));
    }
}

/// Random files with nothing but controls and fillers spoilt.
fn spoilt_files(tally: &mut Tally, random: &mut Random) {
    let (most_batches, most_entries) = if random.one_in(50) { (30, 40) } else { (4, 6) };
    let file = plan(random, most_batches, most_entries).file();
    cured(tally, "a random file in order", &file, &file);
    for _ in 0..4 {
        let mut spoilt = file.clone();
        for _ in 0..1 + random.below(6) {
            spoilt = random_control_damage(random, &spoilt);
        }
        if random.one_in(2) {
            let control = position_of_control(Way::Plain, &file);
            spoilt = with_fillers(&spoilt, control, random.below(14));
        }
        cured(tally, "controls and fillers spoilt", &file, &spoilt);
    }
}

/// Random files with anything damaged, in half of the cases with their controls spoilt as well.
fn damaged_files(tally: &mut Tally, random: &mut Random) {
    let mut file = plan(random, 3, 4).file();
    if random.one_in(2) {
        file = random_control_damage(random, &file);
    }
    for _ in 0..1 + random.below(3) {
        file = random_damage(random, &file);
    }
    both(tally, "a damaged file", &file);
    let damaged = random_end_damage(random, &lined(&file));
    in_way(tally, "a damaged file with damaged line ends", Way::Lined, &damaged);
}

/// Bytes at random in whole records, whose types are mostly known, and in any length.
fn noise(tally: &mut Tally, random: &mut Random) {
    for way in Way::BOTH {
        let length = way.record_length() * (1 + random.below(30)) - usize::from(random.one_in(8));
        let any = random.one_in(2);
        let mut draw = || if any { random.byte() } else { *random.pick(&BORDER_BYTES) };
        let mut bytes: Vec<u8> = (0..length).map(|_| draw()).collect();
        for record in bytes.chunks_mut(way.record_length()) {
            record[0] = *random.pick(b"1566778899");
        }
        in_way(tally, "random bytes", way, &bytes);
    }
}

/// A million records: large batches, and batches of one entry with nothing right in any control; full
/// of fillers; all of one type.
fn biggest_files(tally: &mut Tally) {
    let shape = BigFile { records: MOST_RECORDS, entries_in_batch: 100_000, addendum_every: 3 };
    let large = big_file(&shape);
    cured(tally, "a million records", &large, &without_controls(&large, b'#'));
    let shape = BigFile { entries_in_batch: 1, addendum_every: 0, ..shape };
    let small = big_file(&shape);
    cured(tally, "a million records in small batches", &small, &without_controls(&small, b'#'));
    let filled = with_fillers(&of_records(5), 5, MOST_RECORDS - 5);
    cured(tally, "a million records, nearly all of them fillers", &of_records(5), &filled);
    for byte in [b'8', b'9'] {
        both(tally, "a million records of one type", &vec![byte; MOST_RECORDS * RECORD]);
    }
    both(tally, "more than a million records", &[&small[..], &FILLER].concat());
}
