//! The check: the same verdict, and the acceptance and the rows filled or left alone.

use crate::guard::PATTERN;
use crate::rows::{self, Rows};
use crate::run::Run;
use crate::tally::{Outcome, Tally, NO_FILE};
use crate::ways;
use ach::boundary::ach_check;
use ach::ACCEPTANCE_LENGTH;
use generate::columns::{field_count, place};
use generate::copies::{
    with_column, with_field, with_record_doubled, with_record_inserted, with_records_swapped,
    with_trace, without_record,
};
use generate::damage::{field_values, random_damage, traces_near};
use generate::lines::{lined, random_end_damage, with_end, LINED_RECORD, SHIFTED_ENDS, WRONG_ENDS};
use generate::remittances::in_ccd;
use generate::seal::resealed;
use generate::{
    big_file, near_limit, plan, sample, BigFile, Plan, Random, CODES, CODES_IN_PPD, RECORD,
};
use independent::Way;

const DEFAULT_CASES: u64 = 100_000;
const MOST_RECORDS: usize = 1_000_000;

pub fn compare(run: &Run, tally: &mut Tally) {
    let cases = run.cases.unwrap_or(DEFAULT_CASES);
    let mut random = Random::new(run.seed);
    bad_inputs(tally);
    every_byte(tally, Way::Plain, sample().file());
    every_byte(tally, Way::Lined, sample().lined_file());
    for base in bases(&mut random) {
        every_cut(tally, &base);
        every_field(tally, &base);
        every_trace(tally, &base);
        every_record(tally, &base);
        every_line_end(tally, &base);
    }
    fillers(tally);
    limits(tally);
    random_files(tally, &mut random, cases / 10);
    damaged_files(tally, &mut random, cases);
    biggest_files(tally);
}

/// Puts a file without line ends to both sides, and its records with line ends in the second way.
/// The two have to be answered alike.
fn both(tally: &mut Tally, about: &str, file: &[u8]) {
    let plain = in_way(tally, about, Way::Plain, file);
    let twin = lined(file);
    let with_ends = in_way(tally, about, Way::Lined, &twin);
    tally.holds("the same answer in both ways", file, plain.agrees_with(&with_ends));
}

/// Puts a file to both sides; the answer, all numbers of the acceptance and the rows have to agree.
/// An accepted file is put to them once more, with too little room for its rows.
fn in_way(tally: &mut Tally, about: &str, way: Way, file: &[u8]) -> Verdict {
    let turn = tally.cases();
    let rows = independent::rows_of(way, file);
    let need = rows.as_ref().map_or(0, Vec::len);
    let verdict = in_room(tally, about, way, file, rows::enough_for(need, turn));
    if rows.is_ok() {
        in_room(tally, about, way, file, rows::short_of(need, turn));
    }
    verdict
}

/// Room counts the numbers that are lent for rows.
fn in_room(tally: &mut Tally, about: &str, way: Way, file: &[u8], room: usize) -> Verdict {
    let number = ways::number(way, tally.cases());
    // SAFETY: the pointer comes from a slice of that length.
    let given = unsafe { Verdict::of(number, file.as_ptr(), file.len(), room) };
    let mut lent = rows::untouched(room);
    let expected = match independent::check_into(way, file, &mut lent) {
        Ok(held) => Outcome::new(0, numbers_of(&held), &[]),
        Err(refusal) => Outcome::refused(refusal, &[]),
    };
    let rows = Rows::new(&lent);
    let about = format!("{about}, room {room}");
    tally.compare(&about, file, given.outcome(), expected.with_rows(&rows));
    given
}

/// What the boundary's check came to.
struct Verdict {
    answer: u64,
    numbers: [u64; ACCEPTANCE_LENGTH],
    rows: Rows,
}

impl Verdict {
    /// # Safety
    /// There have to be so many bytes to read at `file`.
    unsafe fn of(way: u64, file: *const u8, length: usize, room: usize) -> Self {
        let mut numbers = [PATTERN; ACCEPTANCE_LENGTH];
        let mut rows = Rows::new(&rows::untouched(room));
        let list = rows.pointer();
        let answer = ach_check(way, file, length, numbers.as_mut_ptr(), list, room);
        Verdict { answer, numbers, rows }
    }

    fn outcome(&self) -> Outcome<'_, ACCEPTANCE_LENGTH> {
        Outcome::new(self.answer, self.numbers, &[]).with_rows(&self.rows)
    }

    /// Whether the same was said, and the same rows were given, in whatever room.
    fn agrees_with(&self, other: &Verdict) -> bool {
        let rows = |verdict: &Verdict| match verdict.answer {
            0 => verdict.rows.numbers().get(..2 * verdict.numbers[0] as usize).map(<[_]>::to_vec),
            _ => None,
        };
        let said = |verdict: &Verdict| (verdict.answer, verdict.numbers);
        said(self) == said(other) && rows(self) == rows(other)
    }
}

/// An acceptance as the boundary spells it.
pub fn numbers_of(held: &independent::Acceptance) -> [u64; ACCEPTANCE_LENGTH] {
    let mut numbers = [0; ACCEPTANCE_LENGTH];
    let first = [held.batches, held.entries, held.addenda, held.debit, held.credit];
    numbers[..5].copy_from_slice(&first);
    numbers[5..].copy_from_slice(&held.by_code);
    numbers
}

fn bad_inputs(tally: &mut Tally) {
    for number in [0].into_iter().chain(ways::SECOND) {
        for room in [0, 1, 2, 100] {
            // SAFETY: of no bytes none is read, so the pointer to them may be null.
            let given = unsafe { Verdict::of(number, std::ptr::null(), 0, room) };
            let rows = Rows::new(&rows::untouched(room));
            let expected = Outcome::refused(NO_FILE, &[]).with_rows(&rows);
            tally.compare("a null pointer", b"", given.outcome(), expected);
        }
    }
    let (file, with_ends) = (sample().file(), sample().lined_file());
    for way in Way::BOTH {
        for length in [0, 1, 93, 94, 95, 96, 97] {
            in_way(tally, "a length that is none", way, &file[..length]);
        }
        // The last two are a whole number of records in both ways.
        for length in [1, 94, 96, 940, 960, 1_880, 1_920, 4_512, 45_120] {
            for byte in 0..=255 {
                in_way(tally, "one byte throughout", way, &vec![byte; length]);
            }
        }
        in_way(tally, "the sample", way, &file);
        in_way(tally, "the sample with line ends", way, &with_ends);
    }
}

/// Every byte of a file, line ends included, set to every value.
fn every_byte(tally: &mut Tally, way: Way, mut file: Vec<u8>) {
    for place in 0..file.len() {
        let kept = file[place];
        for byte in 0..=255 {
            file[place] = byte;
            in_way(tally, "a byte of the sample", way, &file);
        }
        file[place] = kept;
    }
}

/// Small files of different make whose parts are damaged one by one.
fn bases(random: &mut Random) -> Vec<Vec<u8>> {
    let every_code = in_ccd(200, &CODES);
    let debits = in_ccd(225, &[27, 28, 29, 37, 38, 39]);
    let mut in_ppd = in_ccd(200, &CODES_IN_PPD);
    in_ppd.batches[0].entry_class = "PPD".into();
    let mut two_batches = sample();
    let mut second = debits.batches[0].clone();
    second.number = 2;
    two_batches.batches.push(second);

    let mut plans = vec![sample(), every_code, debits, in_ppd, two_batches];
    plans.extend((0..3).map(|_| plan(random, 3, 3)));
    plans.iter().map(Plan::file).collect()
}

fn renumber(plan: &mut Plan) {
    for batch in &mut plan.batches {
        for (entry, trace) in batch.entries.iter_mut().zip(1..) {
            entry.trace = trace;
        }
    }
}

/// Every front part of a file, in its own way and, to see that nobody guesses, in the other.
fn every_cut(tally: &mut Tally, base: &[u8]) {
    let with_ends = lined(base);
    for length in 0..=base.len() {
        in_way(tally, "a cut", Way::Plain, &base[..length]);
    }
    for length in 0..=with_ends.len() {
        in_way(tally, "a cut", Way::Lined, &with_ends[..length]);
    }
    in_way(tally, "no line ends", Way::Lined, base);
    in_way(tally, "line ends", Way::Plain, &with_ends);
}

/// The line end of every record damaged: alone, with another, behind a fault, before one, and at
/// the end of the data.
fn every_line_end(tally: &mut Tally, base: &[u8]) {
    let file = lined(base);
    let records = base.len() / RECORD;
    let mut try_one = |about: &str, file: &[u8]| {
        in_way(tally, about, Way::Lined, file);
    };
    for record in 1..=records {
        for end in WRONG_ENDS {
            let damaged = with_end(&file, record, end);
            try_one("a wrong line end", &damaged);
            try_one("a wrong line end, and data end", &damaged[..record * LINED_RECORD]);
            let longer = [damaged.as_slice(), &file[..LINED_RECORD]].concat();
            try_one("a wrong line end, and a record too many", &longer);
        }
        for end in SHIFTED_ENDS {
            let mut damaged = with_end(&file, record, end);
            try_one("a line end too short or too long", &damaged);
            damaged.resize(file.len(), b'9');
            try_one("a line end too short or too long, made up for", &damaged);
        }
        for other in 1..=records {
            for column in [1, 2, 30, 94] {
                let fault = lined(&with_column(base, other, column, b'X'));
                try_one("a wrong line end and a fault", &with_end(&fault, record, b"\n\r"));
            }
            let two = with_end(&with_end(&file, other, b"\r\r"), record, b"\n\n");
            try_one("two wrong line ends", &two);
        }
    }
}

/// Every field with values on both sides of its rules, with the controls as they were and, in both
/// ways, with the controls brought along.
fn every_field(tally: &mut Tally, base: &[u8]) {
    for record in 1..=base.len() / RECORD {
        let record_type = base[(record - 1) * RECORD];
        for field in 1..=field_count(record_type) {
            let now = &base[place(base, record, field)];
            for value in field_values(record_type, field, now) {
                let about = format!("record {record}, field {field}");
                let file = with_field(base, record, field, &value);
                in_way(tally, &about, Way::Plain, &file);
                both(tally, &about, &resealed(&file));
            }
        }
    }
}

/// The trace of every entry, with its addendum's, on both sides of the one before it: also of the
/// last one in the batch before, with which it must not be compared.
fn every_trace(tally: &mut Tally, base: &[u8]) {
    for record in 1..=base.len() / RECORD {
        if base[(record - 1) * RECORD] == b'6' {
            for trace in traces_near(base, record) {
                let about = format!("record {record}, trace {trace}");
                both(tally, &about, &with_trace(base, record, trace));
            }
        }
    }
}

fn every_record(tally: &mut Tally, base: &[u8]) {
    let records = base.len() / RECORD;
    let mut try_both = |about: &str, file: Vec<u8>| {
        both(tally, about, &file);
        both(tally, about, &resealed(&file));
    };
    for one in 1..=records {
        try_both("a record deleted", without_record(base, one));
        try_both("a record doubled", with_record_doubled(base, one));
        for record_type in 0..=255 {
            try_both("a record of another type", with_column(base, one, 1, record_type));
        }
        for other in 1..=records {
            let copy = &base[(other - 1) * RECORD..other * RECORD];
            try_both("a record inserted", with_record_inserted(base, one, copy));
            try_both("records swapped", with_records_swapped(base, one, other));
            try_both(
                "records deleted",
                without_record(&without_record(base, one), other.max(2) - 1),
            );
        }
    }
}

/// Files of every number of fillers, with too few of them, too many, and wrong ones.
fn fillers(tally: &mut Tally) {
    for entries in 1..=20 {
        let mut plan = sample();
        plan.batches[0].entries = vec![plan.batches[0].entries[0].clone(); entries];
        renumber(&mut plan);
        let file = plan.file();
        let records = entries + 4;
        for kept in records..=file.len() / RECORD + 11 {
            let mut changed = file.clone();
            changed.resize(kept * RECORD, b'9');
            both(tally, "fillers too few or too many", &changed);
            let with_ends = lined(&changed);
            for record in [records, kept.min(file.len() / RECORD), kept] {
                let wrong = with_end(&with_ends, record, b"\n\r");
                in_way(tally, "a wrong line end near the fillers", Way::Lined, &wrong);
            }
            if kept > records {
                for column in [1, 2, 47, RECORD] {
                    let wrong = with_column(&changed, kept, column, b'8');
                    both(tally, "a wrong filler", &wrong);
                }
            }
        }
    }
}

/// Totals and hashes at their limits.
fn limits(tally: &mut Tally) {
    for code in [22, 27, 32, 37] {
        for batches in [1, 2, 3] {
            for beyond in [0, 98, 99, 100, 101, 5_000_000_000, 9_999_999_999, 10_000_000_000] {
                let plan = near_limit(code, 999_999_999_900 + beyond, batches);
                let file = plan.file();
                both(tally, "a total near its limit", &file);
                for record in file.len() / RECORD - 12..=file.len() / RECORD {
                    let fields = field_count(file[(record - 1) * RECORD]);
                    for field in 2..=fields {
                        let blanks = vec![b' '; place(&file, record, field).len()];
                        let damaged = with_field(&file, record, field, blanks);
                        both(tally, "a total near its limit, and a fault", &damaged);
                    }
                }
            }
        }
    }
    for last in [0, 248, 249, 250, 251, 39_999_999] {
        let mut plan = sample();
        let mut entry = plan.batches[0].entries[0].clone();
        entry.routing = 39_999_999;
        plan.batches[0].entries = vec![entry; 251];
        plan.batches[0].entries[250].routing = last;
        renumber(&mut plan);
        both(tally, "a hash near its limit", &plan.file());
    }
}

fn random_files(tally: &mut Tally, random: &mut Random, cases: u64) {
    for case in 0..cases {
        let (most_batches, most_entries) = if case % 50 == 0 { (30, 40) } else { (4, 8) };
        let file = plan(random, most_batches, most_entries).file();
        both(tally, "a random file in order", &file);
    }
}

fn damaged_files(tally: &mut Tally, random: &mut Random, cases: u64) {
    const CASES_FOR_EACH: u64 = 20;
    for _ in 0..cases / CASES_FOR_EACH {
        let file = plan(random, 4, 6).file();
        for _ in 0..CASES_FOR_EACH {
            let mut damaged = file.clone();
            for _ in 0..1 + random.below(3) {
                damaged = random_damage(random, &damaged);
            }
            if random.one_in(2) {
                damaged = resealed(&damaged);
            }
            both(tally, "a random file, damaged", &damaged);
            let ends = random_end_damage(random, &lined(&damaged));
            in_way(tally, "a random file, its line ends damaged", Way::Lined, &ends);
        }
    }
}

/// The largest file there is, one record more, and faults in its last block, in both ways; then one
/// with as many batches as there can be.
fn biggest_files(tally: &mut Tally) {
    let shape = BigFile { records: MOST_RECORDS, entries_in_batch: 400_000, addendum_every: 3 };
    let file = big_file(&shape);
    let with_ends = lined(&file);
    for (way, mut file) in [(Way::Plain, file), (Way::Lined, with_ends)] {
        let record = way.record_length();
        in_way(tally, "a million records", way, &file);
        let control = (MOST_RECORDS - 1) * record;
        for offset in [control - record, control, control + 7, control + record - 1] {
            let kept = std::mem::replace(&mut file[offset], b'X');
            in_way(tally, "a million records, a fault near the end", way, &file);
            file[offset] = kept;
        }
        in_way(tally, "a million records less one", way, &file[..control]);
        in_way(tally, "a million records less a byte", way, &file[..file.len() - 1]);
        file.extend(vec![b'9'; record]);
        in_way(tally, "a million records and one", way, &file);
        let most = MOST_RECORDS * record;
        in_way(tally, "a million records and a byte", way, &file[..most + 1]);
        in_way(tally, "a million records and all but a byte", way, &file[..most + record - 1]);
        in_other_way(tally, way, &file);
    }
    let shape = BigFile { records: MOST_RECORDS, entries_in_batch: 1, addendum_every: 0 };
    both(tally, "a million records in small batches", &big_file(&shape));
}

/// Lengths near the limits of both ways, put to the way that the file does not have: most are none
/// of its lengths, and those that are end at the second record or the first line end.
fn in_other_way(tally: &mut Tally, way: Way, file: &[u8]) {
    let other = if way == Way::Plain { Way::Lined } else { Way::Plain };
    let both = RECORD * LINED_RECORD / 2;
    let near = |limit: usize| [limit / both * both, limit, limit / both * both + both];
    for length in near(94_000_000).into_iter().chain(near(96_000_000)) {
        if let Some(part) = file.get(..length) {
            in_way(tally, "a length near the limit, in the other way", other, part);
        }
    }
}
