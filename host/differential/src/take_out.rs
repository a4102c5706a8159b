//! Taking entries out: the same answers, the same bytes and the same rows, and the file as if written
//! without the entries.

use crate::guard::{Guarded, PATTERN};
use crate::rows::{self, Rows};
use crate::run::Run;
use crate::tally::{Outcome, Tally};
use crate::ways;
use ach::boundary::ach_take_out;
use generate::damage::random_damage;
use generate::lines::{lined, random_end_damage, with_end, WRONG_ENDS};
use generate::recalls::{random_recall, NO_ENTRIES};
use generate::seal::resealed;
use generate::tables::without_entries;
use generate::{
    big_file, is_credit, near_limit, plan, sample, BigFile, Entry, Plan, Random, RECORD,
};
use independent::Way;
use std::ptr::null_mut;

const DEFAULT_CASES: u64 = 1_100_000;
const MOST_RECORDS: usize = 1_000_000;
/// More entries have too many subsets to try each.
const MOST_FOR_SUBSETS: usize = 6;

pub fn compare(run: &Run, tally: &mut Tally) {
    let cases = run.cases.unwrap_or(DEFAULT_CASES);
    let mut random = Random::new(run.seed);
    bad_inputs(tally);
    line_ends(tally);
    let mut bases = vec![sample()];
    bases.extend((0..30).map(|_| plan(&mut random, 3, 2)));
    for base in &bases {
        every_subset(tally, base);
        numbers_outside(tally, base);
    }
    fillers(tally);
    limits(tally);
    biggest_files(tally);
    while tally.cases() < cases {
        random_files(tally, &mut random);
        damaged_files(tally, &mut random);
    }
}

/// A call of the boundary, after which the lent memory can be looked at.
struct Call {
    answer: u64,
    length: u64,
    file: Guarded<u8>,
    rows: Rows,
}

impl Call {
    /// Lends copies of file and list, and room for rows, between guards, and counts that nothing else
    /// was written to.
    fn of(tally: &mut Tally, way: Way, file: &[u8], list: &[u64], room: usize) -> Self {
        // Every call counts two cases, and all numbers of the second way are to take turns.
        let number = ways::number(way, tally.cases() / 2);
        let mut lent = Guarded::new(file, b'6');
        let mut numbers = Guarded::new(list, 1);
        let mut length = Guarded::new(&[PATTERN], PATTERN);
        let mut rows = Rows::new(&rows::untouched(room));
        // To nothing the pointer may be null.
        let bytes = if file.is_empty() { null_mut() } else { lent.pointer() };
        let entries = if list.is_empty() { null_mut() } else { numbers.pointer() };
        let (space, count, given) = (rows.pointer(), list.len(), length.pointer());
        // SAFETY: the pointers are to as many bytes and numbers as the call is told, and apart.
        let answer =
            unsafe { ach_take_out(number, bytes, file.len(), entries, count, space, room, given) };
        let whole = lent.is_whole() && numbers.is_whole() && length.is_whole();
        let kept = whole && numbers.content() == list;
        tally.holds("only the file, the length and the rows are written to", file, kept);
        Call { answer, length: length.content()[0], file: lent, rows }
    }

    fn outcome(&self) -> Outcome<'_, 1> {
        let outcome = Outcome::new(self.answer, [self.length], self.file.content());
        outcome.with_rows(&self.rows)
    }

    /// What is left of the file, and what stands behind it; nothing if it was refused.
    fn parts(&self) -> Option<(&[u8], &[u8])> {
        let length = usize::try_from(self.length).ok().filter(|_| self.answer == 0)?;
        self.file.content().split_at_checked(length)
    }
}

/// Puts a list to both sides with room for as many rows as the file has, and by turns more or less.
fn in_way(tally: &mut Tally, about: &str, way: Way, file: &[u8], list: &[u64]) {
    let turn = tally.cases() / 2;
    let need = independent::rows_of(way, file).map_or(0, |rows| rows.len());
    let room = match turn % 2 {
        0 => rows::enough_for(need, turn / 2),
        _ => rows::short_of(need, turn / 2),
    };
    in_room(tally, about, way, file, list, room);
}

/// Puts a list to both sides with so many numbers for rows: the same answer, the same length, the
/// same rows and the same bytes everywhere.
fn in_room(
    tally: &mut Tally,
    about: &str,
    way: Way,
    file: &[u8],
    list: &[u64],
    room: usize,
) -> Call {
    let (mut memory, mut rows) = (file.to_vec(), rows::untouched(room));
    let taken = independent::take_out(way, &mut memory, list, &mut rows);
    let expected = match taken {
        Ok(length) => Outcome::new(0, [length as u64], &memory),
        Err(refusal) => Outcome::refused(refusal, file),
    };
    let call = Call::of(tally, way, file, list, room);
    let first = &list[..list.len().min(20)];
    let about = format!("{about}, {way:?}, room {room}, list of {}: {first:?}", list.len());
    let rows = Rows::new(&rows);
    tally.compare(&about, file, call.outcome(), expected.with_rows(&rows));
    call
}

/// Puts the file of a plan to both sides in both ways, with room for the rows of what is left and
/// with less. What comes of it has to be right whatever either of them says.
fn of_plan(tally: &mut Tally, about: &str, plan: &Plan, list: &[u64]) {
    let file = plan.file();
    let rest = plan.without(list);
    let need = 2 * rest.batches.len();
    let due = due(plan, &rest, list);
    for way in Way::BOTH {
        let file = ways::in_way(way, &file);
        let turn = tally.cases() / 2;
        let short = rows::short_of(need, turn);
        let call = in_room(tally, about, way, &file, list, short);
        // Room comes last, and no rows are due where no entry is left.
        let due_there = if due == 0 { 23 } else { due };
        tally.holds("granted or refused as due", &file, call.answer == due_there);

        let room = rows::enough_for(need, turn);
        let call = in_room(tally, about, way, &file, list, room);
        tally.holds("granted or refused as due", &file, call.answer == due);
        if due == 0 {
            Left::of(plan, &rest, list).by(tally, way, &call);
        }
    }
}

/// The answer due for a file in order: 25 before 27, and both without a place.
fn due(plan: &Plan, rest: &Plan, list: &[u64]) -> u64 {
    let entries = 1..=plan.entry_count() as u64;
    if !list.iter().all(|entry| entries.contains(entry)) {
        return 25;
    }
    if rest.batches.is_empty() {
        return 27;
    }
    0
}

/// What has to be left, rendered from the plan without the entries and from its table without their
/// rows.
struct Left {
    file: Vec<u8>,
    rows: Vec<u64>,
    table: Vec<u8>,
    counts: Counts,
}

impl Left {
    fn of(plan: &Plan, rest: &Plan, list: &[u64]) -> Self {
        let table = without_entries(&plan.table(), list);
        Left { file: rest.file(), rows: rest.rows(), table, counts: counts(rest) }
    }

    /// It is left by this call, is accepted, and is what the library reads and writes as that table.
    fn by(&self, tally: &mut Tally, way: Way, call: &Call) {
        let (rest, behind) = call.parts().unwrap_or_default();
        let rendered = ways::in_way(way, &self.file);
        tally.holds("rendered without the entries", rest, rest == rendered);
        tally.holds("blanks behind it", rest, behind.iter().all(|byte| *byte == b' '));
        tally.holds("with its rows", rest, call.rows.numbers().starts_with(&self.rows));
        let way = ways::of_library(way);
        let held = ach::check(way, rest)
            .map(|held| (held.batches, held.entries, held.addenda, held.debit, held.credit));
        tally.holds("accepted, with the counts of what is left", rest, held == Ok(self.counts));
        let read = ach::table_of(way, rest);
        tally.holds("read, the table without the rows", rest, read.as_ref() == Ok(&self.table));
        let written = ach::file_of(way, &self.table);
        tally.holds("written from that table", rest, written.as_deref() == Ok(rest));
    }
}

/// Batches, entries, addenda, debit and credit cents.
type Counts = (u64, u64, u64, u64, u64);

fn counts(plan: &Plan) -> Counts {
    let entries = || plan.batches.iter().flat_map(|batch| &batch.entries);
    let addenda = entries().filter(|entry| entry.addendum.is_some()).count();
    let cents = |of_credits: bool| {
        let of_side = entries().filter(|entry| is_credit(entry.code) == of_credits);
        of_side.map(|entry| entry.amount).sum()
    };
    let batches = plan.batches.len() as u64;
    (batches, plan.entry_count() as u64, addenda as u64, cents(false), cents(true))
}

/// Nothing, the front parts of a file, and a file that has the other way.
fn bad_inputs(tally: &mut Tally) {
    for (way, other) in [(Way::Plain, Way::Lined), (Way::Lined, Way::Plain)] {
        let file = ways::in_way(way, &sample().file());
        for cut in 0..file.len() {
            in_way(tally, "a file cut", way, &file[..cut], LISTS[cut % LISTS.len()]);
        }
        for list in LISTS {
            in_way(tally, "nothing", way, b"", list);
            in_way(tally, "the other way", other, &file, list);
        }
    }
}

/// Lists for a file of two entries: granted, and refused in each way.
const LISTS: [&[u64]; 8] = [&[], &[1], &[2], &[1, 2], &[0], &[3], &[2, 1, u64::MAX], &[2, 2, 2]];

/// Whoever takes from a file whose line ends are not all there gets their refusal.
fn line_ends(tally: &mut Tally) {
    let file = sample().lined_file();
    for record in 1..=10 {
        for end in WRONG_ENDS {
            let damaged = with_end(&file, record, end);
            for list in LISTS {
                in_way(tally, "a wrong line end", Way::Lined, &damaged, list);
            }
        }
    }
}

/// Every set of entries, in order and, with repeats, backwards.
fn every_subset(tally: &mut Tally, plan: &Plan) {
    let entries = plan.entry_count();
    assert!(entries <= MOST_FOR_SUBSETS);
    for subset in 0..1 << entries {
        let list: Vec<u64> = (0..entries as u64)
            .filter(|index| subset >> index & 1 == 1)
            .map(|index| index + 1)
            .collect();
        of_plan(tally, "a subset", plan, &list);
        let turned: Vec<u64> = list.iter().rev().chain(&list).copied().collect();
        of_plan(tally, "a subset backwards, and again", plan, &turned);
    }
}

/// Numbers that no entry has: alone, and before, among and behind others, also behind all.
fn numbers_outside(tally: &mut Tally, plan: &Plan) {
    let entries = plan.entry_count() as u64;
    for bad in NO_ENTRIES.into_iter().chain([entries + 1, entries + 2]) {
        let all: Vec<u64> = (1..=entries).collect();
        for others in [&all[..], &all[1..], &[1], &[]] {
            for place in 0..=others.len() {
                let mut list = others.to_vec();
                list.insert(place, bad);
                of_plan(tally, "a number that is no entry's", plan, &list);
            }
        }
    }
}

/// From 25 entries down to one, from both ends: every number of fillers, and blocks that go.
fn fillers(tally: &mut Tally) {
    let mut plan = sample();
    let models = plan.batches[0].entries.clone();
    let of_trace = |trace: u32| Entry { trace, ..models[trace as usize % 2].clone() };
    plan.batches[0].entries = (1..=25).map(of_trace).collect();
    for gone in 0..=25 {
        of_plan(tally, "the first entries", &plan, &(1..=gone).collect::<Vec<u64>>());
        of_plan(tally, "the last entries", &plan, &(26 - gone..=25).collect::<Vec<u64>>());
    }
}

/// Totals that were full, and hashes that were cut to ten digits.
fn limits(tally: &mut Tally) {
    for code in [22, 27, 32, 37] {
        for batches in [1, 2, 3] {
            let mut plan = near_limit(code, 999_999_999_999, batches);
            let last = plan.entry_count() as u64;
            for list in [&[1][..], &[last], &[1, 50, 51, 52, last]] {
                of_plan(tally, "a total at its limit", &plan, list);
            }
            for batch in &mut plan.batches {
                batch.entries = repeated(&batch.entries, 251);
            }
            let all: Vec<u64> = (1..=251 * batches as u64).collect();
            for kept in [0, 1, 249, 250, 251, 252] {
                of_plan(tally, "a hash at its limit", &plan, &all[kept.min(all.len())..]);
            }
        }
    }
}

/// So many entries at a bank with a high number, which carry one cent each.
fn repeated(entries: &[Entry], count: u32) -> Vec<Entry> {
    let model = Entry { routing: 39_999_999, amount: 1, ..entries[0].clone() };
    (1..=count).map(|trace| Entry { trace, ..model.clone() }).collect()
}

fn random_files(tally: &mut Tally, random: &mut Random) {
    let (most_batches, most_entries) = if random.one_in(50) { (30, 40) } else { (4, 6) };
    let plan = plan(random, most_batches, most_entries);
    for _ in 0..4 {
        let list = random_recall(random, &plan);
        of_plan(tally, "a random list", &plan, &list);
    }
}

/// The file's own refusals come before those of the list.
fn damaged_files(tally: &mut Tally, random: &mut Random) {
    let plan = plan(random, 3, 4);
    let list = random_recall(random, &plan);
    let mut file = random_damage(random, &plan.file());
    if random.one_in(2) {
        file = resealed(&file);
    }
    in_way(tally, "a damaged file", Way::Plain, &file, &list);
    in_way(tally, "a damaged file", Way::Lined, &lined(&file), &list);
    let base = if random.one_in(2) { plan.file() } else { file };
    let damaged = random_end_damage(random, &lined(&base));
    in_way(tally, "a file with damaged line ends", Way::Lined, &damaged, &list);
}

/// The largest file there is: a few entries, half of them, all but one, all, and a bad number behind
/// a list of them all.
fn biggest_files(tally: &mut Tally) {
    let shape = BigFile { records: MOST_RECORDS, entries_in_batch: 100_000, addendum_every: 3 };
    let file = big_file(&shape);
    let entries = file.chunks(RECORD).filter(|record| record[0] == b'6').count() as u64;
    let mut lists = vec![vec![entries, 1, entries / 2, 2], (1..=entries).step_by(2).collect()];
    lists.extend([(2..=entries).rev().collect(), (1..entries).collect(), (1..=entries).collect()]);
    lists.push((1..=entries + 1).collect());
    for way in Way::BOTH {
        let file = ways::in_way(way, &file);
        let need = independent::rows_of(way, &file).map_or(0, |rows| rows.len());
        for list in &lists {
            in_room(tally, "a million records", way, &file, list, need);
            in_room(tally, "a million records", way, &file, list, 1);
        }
    }
}
