//! Times the proved library against the independent implementation, both in this process and on
//! the same file of a million records; rows that say so are on the file with line ends, on one whose
//! batches have one entry each, or on one with nothing right in any control. To be built with
//! `--release`.
//!
//! The best of several rounds counts, since whatever else the machine does only adds time. The
//! rounds of the two sides take turns, so that a slow while hits both.

use generate::controls::without_controls;
use generate::lines::lined;
use generate::{big_file, BigFile};
use std::hint::black_box;
use std::time::{Duration, Instant};

const RECORDS: usize = 1_000_000;
const ROUNDS: usize = 7;

fn main() {
    let shape = BigFile { records: RECORDS, entries_in_batch: 20_000, addendum_every: 4 };
    let file = big_file(&shape);
    println!("a file of {RECORDS} records, {} bytes, best of {ROUNDS}", file.len());
    println!("                proved library          independent             ratio");
    check("check", ach::Way::Plain, independent::Way::Plain, &file);
    check("check, lined", ach::Way::Lined, independent::Way::Lined, &lined(&file));
    small_batches();
    read_and_write(&file);
    alter(&file);
    take_out("take out 4", &file, |entries| (1..=4).map(|fifth| entries * fifth / 5).collect());
    take_out("take out half", &file, |entries| (1..=entries).step_by(2).collect());
    mend("mend", &file);
    mend("mend, spoilt", &without_controls(&file, b'#'));
    let shape = BigFile { records: RECORDS, entries_in_batch: 1, addendum_every: 0 };
    mend("mend, small", &without_controls(&big_file(&shape), b'#'));
}

/// The check with the list that it gives, in memory that is lent.
fn check(name: &str, way: ach::Way, independent_way: independent::Way, file: &[u8]) {
    let due = "the file is in order, and the room suffices";
    let room = way.room_for_rows(file.len());
    let (mut one, mut other) = (vec![0; room], vec![0; room]);
    race(
        name,
        || ach::check_into(way, black_box(file), &mut one).map(|held| held.entries).expect(due),
        || {
            independent::check_into(independent_way, black_box(file), &mut other)
                .map(|held| held.entries)
                .expect(due)
        },
    );
}

/// As many rows as a file can have, and a question that looks at all of them.
fn small_batches() {
    let shape = BigFile { records: RECORDS, entries_in_batch: 1, addendum_every: 0 };
    let file = big_file(&shape);
    check("check, small", ach::Way::Plain, independent::Way::Plain, &file);
    let rows = independent::rows_of(independent::Way::Plain, &file).expect("it is in order");
    race(
        "runs out",
        || ach::runs_out(black_box(&rows), u64::MAX).rows as usize,
        || independent::runs_out(black_box(&rows), u64::MAX).rows,
    );
}

fn read_and_write(file: &[u8]) {
    let table = independent::read(independent::Way::Plain, file).expect("the file is in order");
    let (mut one, mut other) = (vec![0; table.len()], vec![0; table.len()]);
    race(
        "read",
        || ach::read(ach::Way::Plain, black_box(file), &mut one).expect("the room suffices"),
        || {
            independent::read_into(independent::Way::Plain, black_box(file), &mut other)
                .expect("the room suffices")
        },
    );
    let (mut one, mut other) = (vec![0; file.len()], vec![0; file.len()]);
    race(
        "write",
        || ach::write(ach::Way::Plain, black_box(&table), &mut one).expect("the room suffices"),
        || {
            independent::write_into(independent::Way::Plain, black_box(&table), &mut other)
                .expect("the room suffices")
        },
    );
}

fn alter(file: &[u8]) {
    let entry = middle_live_entry(file);
    let rows = independent::rows_of(independent::Way::Plain, file).expect("the file is in order");
    let (mut one, mut one_rows) = (file.to_vec(), rows.clone());
    let (mut other, mut other_rows) = (file.to_vec(), rows);
    race(
        "alter",
        || {
            ach::alter(ach::Way::Plain, black_box(&mut one), &mut one_rows, entry, 4_711)
                .expect("the entry takes it")
        },
        || {
            let way = independent::Way::Plain;
            independent::alter(way, black_box(&mut other), &mut other_rows, entry, 4_711)
                .expect("the entry takes it")
        },
    );
    race(
        "addendum",
        || {
            ach::addendum(ach::Way::Plain, black_box(file), entry)
                .map(<[u8]>::len)
                .expect("the entry is there")
        },
        || {
            independent::addendum(independent::Way::Plain, black_box(file), entry)
                .expect("the entry is there")
                .1
        },
    );
}

/// Takes from the file, which is there afresh in every round, what is chosen of so many entries.
fn take_out(name: &str, file: &[u8], chosen: impl Fn(u64) -> Vec<u64>) {
    let entries = file.chunks(generate::RECORD).filter(|record| record[0] == b'6').count();
    let list = chosen(entries as u64);
    let due = "the entries are there, and others, and the room suffices";
    let room = ach::Way::Plain.room_for_rows(file.len());
    let (mut one, mut other) = (vec![0; room], vec![0; room]);
    race_in(
        name,
        &mut file.to_vec(),
        |lent| lent.copy_from_slice(file),
        |lent| ach::take_out(ach::Way::Plain, black_box(lent), &list, &mut one).expect(due),
        |lent| {
            let way = independent::Way::Plain;
            independent::take_out(way, black_box(lent), &list, &mut other).expect(due)
        },
    );
}

/// Mends a file in order, or one with nothing right in any control, into memory that is lent.
fn mend(name: &str, file: &[u8]) {
    let due = "nothing but controls is wrong, and the room suffices";
    let way = ach::Way::Plain;
    let rooms =
        || (vec![0; way.room_for_mended(file.len())], vec![0; way.room_for_changes(file.len())]);
    let ((mut one, mut one_list), (mut other, mut other_list)) = (rooms(), rooms());
    race(
        name,
        || ach::mend_into(way, black_box(file), &mut one, &mut one_list).expect(due),
        || {
            let way = independent::Way::Plain;
            independent::mend_into(way, black_box(file), &mut other, &mut other_list).expect(due)
        },
    );
}

/// The number of an entry in the middle of the file that carries money.
fn middle_live_entry(file: &[u8]) -> u64 {
    let entries = file.chunks(generate::RECORD).filter(|record| record[0] == b'6');
    let is_live = |record: &[u8]| [b'2', b'7'].contains(&record[2]);
    let numbered = entries.zip(1_u64..).skip(RECORDS / 3);
    let mut live = numbered.filter(|(record, _)| is_live(record));
    live.next().map(|(_, number)| number).expect("every other entry carries money")
}

/// Lets the two sides do the same, in turns, and prints a row.
fn race<T: PartialEq + std::fmt::Debug>(
    name: &str,
    mut proved: impl FnMut() -> T,
    mut independent: impl FnMut() -> T,
) {
    race_in(name, &mut (), |()| (), |()| proved(), |()| independent());
}

/// As `race`, in memory that is prepared before each turn; that is not timed.
fn race_in<M, T: PartialEq + std::fmt::Debug>(
    name: &str,
    memory: &mut M,
    prepare: impl Fn(&mut M),
    mut proved: impl FnMut(&mut M) -> T,
    mut independent: impl FnMut(&mut M) -> T,
) {
    let mut best = [Duration::MAX; 2];
    for _ in 0..ROUNDS {
        prepare(memory);
        let (result, time) = timed(|| proved(memory));
        prepare(memory);
        let (expected, other_time) = timed(|| independent(memory));
        // The first round of an alteration finds another amount than the later ones, on both sides.
        assert_eq!(result, expected, "{name}: the two sides differ");
        best = [best[0].min(time), best[1].min(other_time)];
    }
    let ratio = best[0].as_secs_f64() / best[1].as_secs_f64();
    println!("{name:<14}{}{}  {ratio:>6.2}", column(best[0]), column(best[1]));
}

fn timed<T>(work: impl FnOnce() -> T) -> (T, Duration) {
    let start = Instant::now();
    let result = black_box(work());
    (result, start.elapsed())
}

fn column(time: Duration) -> String {
    let milliseconds = time.as_secs_f64() * 1e3;
    let per_record = time.as_secs_f64() * 1e9 / RECORDS as f64;
    format!("  {milliseconds:>8.1} ms {per_record:>6.1} ns/rec")
}
