//! Reading and writing: the same table or file in rooms of every size, and nothing else touched.

use crate::guard::PATTERN;
use crate::rooms;
use crate::run::Run;
use crate::tally::{Outcome, Tally};
use crate::ways;
use ach::boundary::{ach_read, ach_write};
use generate::damage::random_damage;
use generate::lines::{lined, random_end_damage, with_end, WRONG_ENDS};
use generate::seal::resealed;
use generate::tables::{
    of_empty_batches, random_row_damage, shape_damage, with_empty_batch, with_last_entry_repeated,
};
use generate::{big_file, near_limit, plan, sample, Batch, BigFile, Plan, Random};
use independent::{Refusal, Way};

const DEFAULT_CASES: u64 = 20_000;

/// The shape of both functions: the way, input and its length, room and its length, the result's
/// length.
type Call = unsafe extern "C" fn(u64, *const u8, usize, *mut u8, usize, *mut u64) -> u64;

pub fn compare(run: &Run, tally: &mut Tally) {
    let cases = run.cases.unwrap_or(DEFAULT_CASES);
    let mut random = Random::new(run.seed);
    bad_inputs(tally);
    let mut bases = vec![sample(), two_batches()];
    bases.extend((0..4).map(|_| plan(&mut random, 3, 4)));
    for base in &bases {
        damaged_shapes(tally, &base.table());
        every_byte(tally, &base.table());
    }
    line_ends(tally);
    limits(tally);
    random_plans(tally, &mut random, cases);
    damaged_files(tally, &mut random, cases);
    damaged_tables(tally, &mut random, cases);
    biggest(tally);
    too_many_records(tally);
}

/// Reads a file without line ends in the first way, and its records with line ends in the second:
/// the tables have to be the same.
fn read(tally: &mut Tally, about: &str, file: &[u8]) {
    let (plain, twin) = (independent::read(Way::Plain, file), lined(file));
    let with_ends = independent::read(Way::Lined, &twin);
    in_all_rooms(tally, about, (ach_read, Way::Plain), file, &plain);
    in_all_rooms(tally, about, (ach_read, Way::Lined), &twin, &with_ends);
    tally.holds("the same table in both ways", file, plain == with_ends);
}

fn read_in_way(tally: &mut Tally, about: &str, way: Way, file: &[u8]) {
    in_all_rooms(tally, about, (ach_read, way), file, &independent::read(way, file));
}

/// Writes the file of a table in both ways: the records have to be the same.
fn write(tally: &mut Tally, about: &str, table: &[u8]) {
    let [plain, with_ends] = Way::BOTH.map(|way| {
        let result = independent::write(way, table);
        in_all_rooms(tally, about, (ach_write, way), table, &result);
        result
    });
    let twins = plain.map(|file| lined(&file)) == with_ends;
    tally.holds("the same records in both ways", table, twins);
}

/// In rooms of all sizes that matter.
fn in_all_rooms(
    tally: &mut Tally,
    about: &str,
    call: (Call, Way),
    input: &[u8],
    result: &Result<Vec<u8>, Refusal>,
) {
    let rooms = rooms::around(result, 2 * input.len() + 2_000);
    let result = result.as_deref().map_err(|refusal| *refusal);
    for room in rooms {
        in_room(tally, about, call, input, result, room);
    }
}

fn in_room(
    tally: &mut Tally,
    about: &str,
    (call, way): (Call, Way),
    input: &[u8],
    result: Result<&[u8], Refusal>,
    room: usize,
) {
    let number = ways::number(way, tally.cases());
    rooms::in_room(tally, about, input, result, room, |space, size, length| {
        // SAFETY: both pointers come from slices of the lengths given.
        unsafe { call(number, input.as_ptr(), input.len(), space, size, length) }
    });
}

fn bad_inputs(tally: &mut Tally) {
    for (call, number) in [(ach_read as Call, 1), (ach_write as Call, 24)] {
        for way in [0].into_iter().chain(ways::SECOND) {
            let mut length = PATTERN;
            let (input, room) = (std::ptr::null(), std::ptr::null_mut());
            // SAFETY: of no bytes none is read or written, so the pointers to them may be null.
            let answer = unsafe { call(way, input, 0, room, 0, &mut length) };
            let given = Outcome::new(answer, [length], &[]);
            let refusal = Refusal { number, record: 0, field: 0 };
            tally.compare("null pointers", b"", given, Outcome::refused(refusal, &[]));
        }
    }
    let table = sample().table();
    for length in 0..=table.len() {
        write(tally, "a table cut", &table[..length]);
    }
    for way in Way::BOTH {
        let file = ways::in_way(way, &sample().file());
        for length in 0..=file.len() {
            read_in_way(tally, "a file cut", way, &file[..length]);
        }
    }
    for byte in 0..=255 {
        for length in [1, 6, 109, 470, 940] {
            read(tally, "one byte throughout", &vec![byte; length]);
            write(tally, "one byte throughout", &vec![byte; length]);
        }
    }
}

/// A file whose line ends are not all there gives no table.
fn line_ends(tally: &mut Tally) {
    let file = two_batches().lined_file();
    for record in 1..=20 {
        for end in WRONG_ENDS {
            read_in_way(tally, "a wrong line end", Way::Lined, &with_end(&file, record, end));
        }
    }
    read_in_way(tally, "line ends", Way::Plain, &file);
    read_in_way(tally, "no line ends", Way::Lined, &two_batches().file());
}

fn two_batches() -> Plan {
    let mut plan = sample();
    let second = Batch { number: 2, ..plan.batches[0].clone() };
    plan.batches.push(second);
    plan
}

fn damaged_shapes(tally: &mut Tally, table: &[u8]) {
    write(tally, "a table in order", table);
    for damaged in shape_damage(table) {
        write(tally, "a table of doubtful shape", &damaged);
    }
    for index in 0..2 {
        write(tally, "an empty batch", &with_empty_batch(table, index));
    }
    for times in [1, 2, 7] {
        write(tally, "an entry repeated", &with_last_entry_repeated(table, times));
    }
    for batches in 0..4 {
        write(tally, "empty batches", &of_empty_batches(table, batches));
    }
}

/// Every byte of a table replaced by some that are not digits, not text, or near them.
fn every_byte(tally: &mut Tally, table: &[u8]) {
    let mut damaged = table.to_vec();
    for place in 0..table.len() {
        for byte in [b' ', b'/', b'0', b'1', b'9', b':', b'A', b'a', b'~', 0x7F] {
            damaged[place] = byte;
            write(tally, "a byte of a table", &damaged);
        }
        damaged[place] = table[place];
    }
}

fn limits(tally: &mut Tally) {
    for code in [22, 27, 32, 37] {
        for total in [999_999_999_900, 999_999_999_999, 1_000_000_000_000, 1_009_999_999_899] {
            for batches in [1, 2] {
                let plan = near_limit(code, total, batches);
                write(tally, "a total near its limit", &plan.table());
                read(tally, "a total near its limit", &plan.file());
            }
        }
    }
}

fn random_plans(tally: &mut Tally, random: &mut Random, cases: u64) {
    for case in 0..cases / 10 {
        let (most_batches, most_entries) = if case % 50 == 0 { (20, 40) } else { (4, 8) };
        let plan = plan(random, most_batches, most_entries);
        read(tally, "a random file", &plan.file());
        write(tally, "a random table", &plan.table());
    }
}

fn damaged_files(tally: &mut Tally, random: &mut Random, cases: u64) {
    for _ in 0..cases / 4 {
        let file = plan(random, 3, 4).file();
        let mut damaged = random_damage(random, &file);
        if random.one_in(2) {
            damaged = resealed(&damaged);
        }
        read(tally, "a random file, damaged", &damaged);
        let ends = random_end_damage(random, &lined(&damaged));
        read_in_way(tally, "a random file, its line ends damaged", Way::Lined, &ends);
    }
}

fn damaged_tables(tally: &mut Tally, random: &mut Random, cases: u64) {
    for _ in 0..cases / 4 {
        let mut table = plan(random, 3, 4).table();
        for _ in 0..1 + random.below(2) {
            table = random_row_damage(random, &table);
        }
        write(tally, "a random table, damaged", &table);
    }
}

/// A million records in one batch, read and written, in a room that is just large enough or just
/// not.
fn biggest(tally: &mut Tally) {
    let shape = BigFile { records: 1_000_000, entries_in_batch: 1_000_000, addendum_every: 0 };
    let plain = big_file(&shape);
    let table = independent::read(Way::Plain, &plain).expect("a million records are a file");
    let with_ends = lined(&plain);
    for (way, file) in [(Way::Plain, &plain), (Way::Lined, &with_ends)] {
        let about = "a million records";
        in_room(tally, about, (ach_read, way), file, Ok(&table), table.len());
        for short in [1, 0] {
            let room = file.len() - short;
            in_room(tally, about, (ach_write, way), &table, Ok(file), room);
        }
    }
    let room = table.len() - 1;
    in_room(tally, "a million records", (ach_read, Way::Plain), &plain, Ok(&table), room);
    let longer = with_last_entry_repeated(&table, 1);
    write(tally, "a million records and one", &longer);
}

/// Batches without entries, as many as just fit a file and more.
fn too_many_records(tally: &mut Tally) {
    for batches in [499_999, 500_000, 999_999] {
        let table = of_empty_batches(&sample().table(), batches);
        write(tally, "very many batches", &table);
    }
}
