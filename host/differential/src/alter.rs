//! Altering amounts and asking for addenda: the same answers, the file as if written afresh, and its
//! rows; no other rows are taken.

use crate::guard::PATTERN;
use crate::rows::{self, Rows};
use crate::run::Run;
use crate::tally::{Outcome, Tally, NO_FILE};
use crate::ways;
use ach::boundary::{ach_addendum, ach_alter};
use generate::damage::random_damage;
use generate::funds::other_lists;
use generate::lines::{lined, random_end_damage, with_end, WRONG_ENDS};
use generate::{is_credit, near_limit, plan, sample, Batch, Entry, Plan, Random};
use independent::Way;

const DEFAULT_CASES: u64 = 600_000;
const LARGEST_TOTAL: u64 = 999_999_999_999;
const LONGEST_RUN: usize = 50;

const AMOUNTS: [u64; 12] = [
    0,
    1,
    2,
    9_999_999_998,
    9_999_999_999,
    10_000_000_000,
    10_000_000_001,
    u32::MAX as u64 + 1,
    1 << 32 | 1,
    i64::MAX as u64,
    1 << 63,
    u64::MAX,
];

pub fn compare(run: &Run, tally: &mut Tally) {
    let cases = run.cases.unwrap_or(DEFAULT_CASES);
    let mut random = Random::new(run.seed);
    bad_inputs(tally);
    let mut bases = vec![sample()];
    bases.extend((0..20).map(|_| plan(&mut random, 3, 4)));
    for base in &bases {
        every_entry(tally, base);
    }
    line_ends(tally);
    limits(tally);
    while tally.cases() < cases {
        let plan = plan(&mut random, 4, 6);
        run_of_alterations(tally, &mut random, plan);
        damaged_file(tally, &mut random);
    }
}

fn bad_inputs(tally: &mut Tally) {
    for way in [0].into_iter().chain(ways::SECOND) {
        // SAFETY: of no bytes none is read or written, so the pointer to them may be null.
        let asked = unsafe { asked(way, std::ptr::null(), 0, 1) };
        tally.compare("a null pointer", b"", asked, expected_addendum(Way::Plain, b"", 1));
        for room in [0, 2] {
            let [mut rows, untouched] = [(); 2].map(|()| Rows::new(&rows::untouched(room)));
            // SAFETY: as before.
            let altered = unsafe { altered(way, std::ptr::null_mut(), 0, &mut rows, (1, 1)) };
            let expected = Outcome::refused(NO_FILE, &[]).with_rows(&untouched);
            tally.compare("a null pointer", b"", altered.with_rows(&rows), expected);
        }
    }
    for way in Way::BOTH {
        let file = ways::in_way(way, &sample().file());
        for length in 0..file.len() {
            refused(tally, "a file cut", way, &file[..length], 1, 1);
        }
    }
}

/// Whoever asks about a file whose line ends are not all there gets their refusal, and the file
/// stays.
fn line_ends(tally: &mut Tally) {
    let file = sample().lined_file();
    for record in 1..=10 {
        for end in WRONG_ENDS {
            let damaged = with_end(&file, record, end);
            for (entry, amount) in [(1, 1), (2, 0), (0, 1), (u64::MAX, u64::MAX)] {
                refused(tally, "a wrong line end", Way::Lined, &damaged, entry, amount);
            }
        }
    }
    refused(tally, "line ends", Way::Plain, &file, 1, 1);
    refused(tally, "no line ends", Way::Lined, &sample().file(), 1, 1);
}

/// Puts both questions about an entry of a file that is none.
fn refused(tally: &mut Tally, about: &str, way: Way, file: &[u8], entry: u64, amount: u64) {
    let state = State { file: file.to_vec(), rows: Vec::new() };
    alter_in_way(tally, about, way, &state, (entry, amount), &state);
    addendum_in_way(tally, about, way, file, entry);
}

/// A file with its rows; one that is refused has none.
#[derive(Clone)]
struct State {
    file: Vec<u8>,
    rows: Vec<u64>,
}

impl State {
    fn of_plan(plan: &Plan) -> Self {
        State { file: plan.file(), rows: plan.rows() }
    }

    fn of_file(way: Way, file: Vec<u8>) -> Self {
        State { rows: independent::rows_of(way, &file).unwrap_or_default(), file }
    }

    /// The same records with line ends.
    fn lined(&self) -> Self {
        State { file: lined(&self.file), rows: self.rows.clone() }
    }

    /// What the independent implementation makes of it.
    fn altered(&self, way: Way, entry: u64, amount: u64) -> Self {
        let mut state = self.clone();
        let _ = independent::alter(way, &mut state.file, &mut state.rows, entry, amount);
        state
    }
}

/// Entry numbers inside and outside a file of so many entries.
fn entry_numbers(entries: u64) -> Vec<u64> {
    let outside = [0, entries + 1, 1 << 32, 1 << 32 | 1, 1 << 63, u64::MAX];
    (1..=entries).chain(outside).collect()
}

fn every_entry(tally: &mut Tally, plan: &Plan) {
    let file = plan.file();
    for entry in entry_numbers(plan.entry_count() as u64) {
        addendum(tally, "every entry", &file, entry);
        for amount in AMOUNTS {
            one_alteration(tally, plan, entry, amount);
        }
    }
}

/// Alters one entry of a plan's file; what comes out has to be file and rows of the altered plan,
/// which is given back. A plan that may not be altered so stays.
fn one_alteration(tally: &mut Tally, plan: &Plan, entry: u64, amount: u64) -> Plan {
    let before = State::of_plan(plan);
    let mut altered = plan.clone();
    let (mut file, mut rows) = (before.file.clone(), before.rows.clone());
    if independent::alter(Way::Plain, &mut file, &mut rows, entry, amount).is_ok() {
        entry_of(&mut altered, entry).expect("it was altered").amount = amount;
    }
    let (about, after) = (format!("entry {entry}, amount {amount}"), State::of_plan(&altered));
    alter(tally, &about, &before, (entry, amount), &after);
    with_rows_of(tally, "rows of the file before", &after, &before.rows, (entry, amount));
    altered
}

/// Puts an alteration with the rows of another file, unless they happen to be this one's.
fn with_rows_of(
    tally: &mut Tally,
    about: &str,
    state: &State,
    other: &[u64],
    question: (u64, u64),
) {
    if !other.starts_with(&state.rows) {
        refused_for_rows(tally, about, Way::Plain, state, other, question, 34);
    }
}

fn entry_of(plan: &mut Plan, entry: u64) -> Option<&mut Entry> {
    let index = usize::try_from(entry).ok()?.checked_sub(1)?;
    plan.batches.iter_mut().flat_map(|batch| &mut batch.entries).nth(index)
}

/// Puts an alteration to both sides, and that of the same records with line ends; `after` has to come
/// of it, with line ends or without, and the answers have to be the same.
fn alter(tally: &mut Tally, about: &str, before: &State, question: (u64, u64), after: &State) {
    let plain = alter_in_way(tally, about, Way::Plain, before, question, after);
    let (twin, after_twin) = (before.lined(), after.lined());
    let with_ends = alter_in_way(tally, about, Way::Lined, &twin, question, &after_twin);
    tally.holds("the same alteration in both ways", &before.file, plain == with_ends);
}

/// The answer and the difference given. The alteration is put once more with rows that are not the
/// file's, to which the file's own refusal is due, or 34, and nothing may change.
fn alter_in_way(
    tally: &mut Tally,
    about: &str,
    way: Way,
    before: &State,
    question: (u64, u64),
    after: &State,
) -> (u64, u64) {
    let turn = tally.cases();
    let [lent, left] = [before, after].map(|state| rows::and_more(&state.rows, turn));
    let said = with_rows(tally, about, way, (before, &lent), question, (&after.file, &left));
    let others = match before.rows.as_slice() {
        [] => vec![rows::untouched(turn as usize % 3)],
        rows => other_lists(rows),
    };
    let other = &others[turn as usize % others.len()];
    let about = format!("{about}, other rows");
    let due = if before.rows.is_empty() { said.0 } else { 34 };
    refused_for_rows(tally, &about, way, before, other, question, due);
    said
}

/// Puts an alteration with rows that are not the file's: refused as due, and nothing changes.
fn refused_for_rows(
    tally: &mut Tally,
    about: &str,
    way: Way,
    state: &State,
    other: &[u64],
    question: (u64, u64),
    due: u64,
) {
    let said = with_rows(tally, about, way, (state, other), question, (&state.file, other));
    tally.holds("other rows are refused", &state.file, said.0 == due);
}

/// Puts an alteration with these rows to both sides. The file has to become the one that is given,
/// and so have the rows.
fn with_rows(
    tally: &mut Tally,
    about: &str,
    way: Way,
    (before, lent): (&State, &[u64]),
    (entry, amount): (u64, u64),
    (file, left): (&[u8], &[u64]),
) -> (u64, u64) {
    let (mut memory, mut rows) = (before.file.clone(), Rows::new(lent));
    let number = ways::number(way, tally.cases());
    // SAFETY: the pointer comes from a slice of that length, lent for writing.
    let mut given =
        unsafe { altered(number, memory.as_mut_ptr(), memory.len(), &mut rows, (entry, amount)) };
    given.memory = &memory;
    let said = (given.answer, given.numbers[0]);
    let independent =
        independent::alter(way, &mut before.file.clone(), &mut lent.to_vec(), entry, amount);
    let expected = match independent {
        Ok(difference) => Outcome::new(0, [difference as u64], file),
        Err(refusal) => Outcome::refused(refusal, file),
    };
    let left = Rows::new(left);
    tally.compare(about, &before.file, given.with_rows(&rows), expected.with_rows(&left));
    said
}

/// The answer and the difference that the boundary gives for an alteration.
///
/// # Safety
/// There have to be so many bytes to read and to write at `file`.
unsafe fn altered(
    way: u64,
    file: *mut u8,
    length: usize,
    rows: &mut Rows,
    (entry, amount): (u64, u64),
) -> Outcome<'static, 1> {
    let mut difference = PATTERN as i64;
    let (list, room) = (rows.pointer(), rows.numbers().len());
    let answer = ach_alter(way, file, length, list, room, entry, amount, &mut difference);
    Outcome::new(answer, [difference as u64], &[])
}

/// Asks both sides for an addendum, without line ends and with them; the same text has to be
/// meant.
fn addendum(tally: &mut Tally, about: &str, file: &[u8], entry: u64) {
    let mut plain = addendum_in_way(tally, about, Way::Plain, file, entry);
    let with_ends = addendum_in_way(tally, about, Way::Lined, &lined(file), entry);
    if plain.answer == 0 {
        plain.numbers[0] = ways::moved(plain.numbers[0]);
    }
    tally.holds("the same addendum in both ways", file, plain == with_ends);
}

fn addendum_in_way(
    tally: &mut Tally,
    about: &str,
    way: Way,
    file: &[u8],
    entry: u64,
) -> Outcome<'static, 2> {
    let number = ways::number(way, tally.cases());
    // SAFETY: the pointer comes from a slice of that length.
    let given = unsafe { asked(number, file.as_ptr(), file.len(), entry) };
    let about = format!("{about}, addendum of entry {entry}");
    tally.compare(&about, file, given.clone(), expected_addendum(way, file, entry));
    given
}

/// The answer, the start and the length that the boundary gives for an addendum.
///
/// # Safety
/// There have to be so many bytes to read at `file`.
unsafe fn asked(way: u64, file: *const u8, length: usize, entry: u64) -> Outcome<'static, 2> {
    let mut numbers = [PATTERN; 2];
    let [start, text_length] = &mut numbers;
    let answer = ach_addendum(way, file, length, entry, start, text_length);
    Outcome::new(answer, numbers, &[])
}

fn expected_addendum(way: Way, file: &[u8], entry: u64) -> Outcome<'static, 2> {
    match independent::addendum(way, file, entry) {
        Ok((start, length)) => Outcome::new(0, [start as u64, length as u64], &[]),
        Err(refusal) => Outcome::refused(refusal, &[]),
    }
}

/// Amounts that take the batch's and the file's total just to the limit, and just beyond.
fn limits(tally: &mut Tally) {
    for code in [22, 27, 32, 37] {
        for batches in [1, 2] {
            for total in [999_999_999_900, LARGEST_TOTAL - 1, LARGEST_TOTAL] {
                let mut plan = near_limit(code, total, batches);
                plan.batches.push(other_side(&plan, code));
                let last = plan.entry_count() as u64;
                for entry in [1, 50, 51, 52, 100, 101, last - 1, last] {
                    alter_near_limit(tally, &plan, entry);
                }
            }
        }
    }
}

/// A batch that fills up the side which the code is not on.
fn other_side(plan: &Plan, code: u32) -> Batch {
    let other = if is_credit(code) { 37 } else { 22 };
    let mut batch = near_limit(other, 999_999_999_950, 1).batches.remove(0);
    batch.number = plan.batches.len() as u32 + 1;
    batch
}

fn alter_near_limit(tally: &mut Tally, plan: &Plan, entry: u64) {
    for amount in AMOUNTS.into_iter().chain(amounts_at_limit(plan, entry)) {
        one_alteration(tally, plan, entry, amount);
    }
}

/// The amounts with which the file's total, and the batch's, come to the limit and one beyond.
fn amounts_at_limit(plan: &Plan, entry: u64) -> Vec<u64> {
    let mut plan = plan.clone();
    let Some(&mut Entry { code, amount, .. }) = entry_of(&mut plan, entry) else {
        return Vec::new();
    };
    let total = |batches: &[Batch]| -> u64 {
        let entries = batches.iter().flat_map(|batch| &batch.entries);
        let of_side = entries.filter(|entry| is_credit(entry.code) == is_credit(code));
        of_side.map(|entry| entry.amount).sum()
    };
    let mut totals = vec![total(&plan.batches)];
    totals.extend(plan.batches.iter().map(|batch| total(std::slice::from_ref(batch))));
    let at_limit = totals.iter().map(|total| LARGEST_TOTAL + amount - total);
    at_limit.flat_map(|amount| [amount, amount + 1]).collect()
}

fn run_of_alterations(tally: &mut Tally, random: &mut Random, mut plan: Plan) {
    let entries = plan.entry_count() as u64;
    let stranger = generate::plan(random, 4, 6).rows();
    with_rows_of(tally, "rows of another file", &State::of_plan(&plan), &stranger, (1, 1));
    for _ in 0..1 + random.below(LONGEST_RUN) {
        let file = plan.file();
        let entry = match random.below(10) {
            0 => *random.pick(&entry_numbers(entries)),
            1 => entries,
            _ => random.between(1, entries),
        };
        let amount = match random.below(6) {
            0 => *random.pick(&AMOUNTS),
            1 => random.pick(&[amounts_at_limit(&plan, entry), vec![1]].concat()).to_owned(),
            2 => entry_of(&mut plan, entry).map_or(0, |entry| entry.amount),
            3 => 0,
            _ => random.between(1, 9_999_999_999),
        };
        plan = one_alteration(tally, &plan, entry, amount);
        addendum(tally, "in a run", &file, entry);
    }
}

/// The file's own refusals come before those of entry and amount.
fn damaged_file(tally: &mut Tally, random: &mut Random) {
    let whole = plan(random, 3, 4).file();
    let file = random_damage(random, &whole);
    let entry = *random.pick(&[0, 1, 2, 3, u64::MAX]);
    let amount = *random.pick(&AMOUNTS);
    let before = State::of_file(Way::Plain, file.clone());
    let after = before.altered(Way::Plain, entry, amount);
    alter(tally, "a damaged file", &before, (entry, amount), &after);
    addendum(tally, "a damaged file", &file, entry);

    let about = "a file with damaged line ends";
    let base = if random.one_in(2) { &whole } else { &file };
    let before = State::of_file(Way::Lined, random_end_damage(random, &lined(base)));
    let after = before.altered(Way::Lined, entry, amount);
    alter_in_way(tally, about, Way::Lined, &before, (entry, amount), &after);
    addendum_in_way(tally, about, Way::Lined, &before.file, entry);
}
