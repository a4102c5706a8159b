//! What each command does: bytes in, a question to the library, its answer out.

use crate::explain;
use crate::funds;
use crate::input::{self, Content, Limits, Stamp};
use crate::list::{self, FirstLine};
use crate::list_words::{self, Import, LONGEST_ROW};
use crate::mend;
use crate::money::{signed, spelled};
use crate::options::{Amount, Command, Entry, Mending, Recall, Rows, Source, Target, HELP};
use crate::place::{Place, SecondPlace};
use crate::progress::watched;
use crate::recall;
use crate::show;
use crate::stdout;
use crate::trouble::{failed, Trouble};
use crate::words;
use ach::{Acceptance, Mended, Refusal, Way};
use std::io::{self, Write};

pub fn run(command: Command) -> Result<(), Trouble> {
    match command {
        Command::Help => say(HELP),
        Command::Version => say(&format!("ach {}\n", env!("CARGO_PKG_VERSION"))),
        Command::Check { way, file, line } => check(way, &file, line),
        Command::Show { way, file } => show(way, &file),
        Command::Funds { way, file, limit, line } => funds(way, &file, &limit, line),
        Command::Read { way, file, target, line } => read(way, &file, &target, line),
        Command::Write { way, table, target, line } => write(way, &table, &target, line),
        Command::Alter { way, file, entry, amount, target, line } => {
            alter(way, &file, &entry, &amount, &target, line)
        }
        Command::Remove { way, file, recall, target, line } => {
            remove(way, &file, recall, &target, line)
        }
        Command::Mend { way, file, mending, line } => mend(way, &file, &mending, line),
        Command::Addendum { way, file, entry } => addendum(way, &file, &entry),
        Command::Import { list, rows, target, line } => import(&list, &rows, &target, line),
        Command::Export { table, target, line } => export(&table, &target, line),
        Command::Explain { number } => say(&explain::of_number(number)),
    }
}

/// What was read of a file or a table that is not too long to be one.
struct Loaded {
    name: String,
    bytes: Vec<u8>,
    stamp: Option<Stamp>,
    /// Of a list whose first line is none, the beginning is enough.
    whole: bool,
}

fn load_file(way: Way, source: &Source, line: bool) -> Result<Loaded, Trouble> {
    load(source, Limits::up_to(way.longest_file()))?.map_err(|name| {
        refused(Refusal::without_place(1), line, || words::of_long_file(way, &name))
    })
}

fn load_table(source: &Source, line: bool) -> Result<Loaded, Trouble> {
    load(source, Limits::up_to(ach::LONGEST_TABLE))?
        .map_err(|name| refused(Refusal::without_place(24), line, || words::of_long_table(&name)))
}

/// No list that becomes a table is as long, unless its amounts have zeros in front by the hundred.
const LONGEST_LIST: usize = 1_000_000_000;

fn load_list(source: &Source) -> Result<Loaded, Trouble> {
    let settled = |beginning: &[u8]| list::first_line(beginning) != FirstLine::Whole;
    let loaded = match load(source, Limits { most: LONGEST_LIST, settled })? {
        Ok(loaded) => loaded,
        Err(name) => {
            return failed(format!("{name}: more than {LONGEST_LIST} bytes are not read as a list"))
        }
    };
    let Loaded { name, bytes, whole, .. } = &loaded;
    if !whole && list::first_line(bytes) == FirstLine::Endless {
        let length = bytes.len();
        return failed(format!("{name}: a first line of more than {length} bytes is not read"));
    }
    Ok(loaded)
}

/// The bytes of a row. Of a file that is much too long, as many as the library refuses as well.
fn load_row(source: &Source) -> Result<Vec<u8>, Trouble> {
    let loaded = load(source, Limits::up_to(LONGEST_ROW))?;
    Ok(loaded.map_or_else(|_| vec![b' '; LONGEST_ROW + 1], |loaded| loaded.bytes))
}

/// The entries in a list of those to be removed.
fn load_entries(source: &Source) -> Result<Vec<recall::Entries>, Trouble> {
    let most = recall::LONGEST_LIST;
    match load(source, Limits::up_to(most))? {
        Ok(Loaded { name, bytes, .. }) => recall::listed(&name, &bytes),
        Err(name) => {
            failed(format!("{name}: more than {most} bytes are not read as a list of entries"))
        }
    }
}

/// The bytes, or the name of what is too long.
fn load(source: &Source, limits: Limits) -> Result<Result<Loaded, String>, Trouble> {
    let name = source.name();
    let input = watched("reading", &name, || input::read(source, limits))?;
    let stamp = input.stamp;
    Ok(match input.content {
        Content::Bytes(bytes) => Ok(Loaded { name, bytes, stamp, whole: true }),
        Content::Beginning(bytes) => Ok(Loaded { name, bytes, stamp, whole: false }),
        Content::TooLong => Err(name),
    })
}

/// What the library refused: a line on standard output, or words for standard error.
fn refused(refusal: Refusal, line: bool, words: impl FnOnce() -> String) -> Trouble {
    if !line {
        return Trouble::Refused(words());
    }
    match say_line(Err(refusal)) {
        Ok(()) => Trouble::Refused(String::new()),
        Err(trouble) => trouble,
    }
}

fn say(text: &str) -> Result<(), Trouble> {
    stdout::write(text.as_bytes())
}

/// The check program's line.
fn say_line(answer: Result<Acceptance, Refusal>) -> Result<(), Trouble> {
    say(&line_of(answer))
}

fn line_of(answer: Result<Acceptance, Refusal>) -> String {
    format!("{}\n", ach::line(&answer))
}

fn held_words(held: &Acceptance) -> String {
    format!(
        "batches {}, entries {}, addenda {}, debits {}, credits {}",
        held.batches,
        held.entries,
        held.addenda,
        spelled(held.debit),
        spelled(held.credit)
    )
}

/// What the library says of a file, which it refuses for the file's own sake alone.
fn of_file<T>(
    way: Way,
    loaded: &Loaded,
    line: bool,
    doing: &str,
    ask: impl FnOnce(Way, &[u8]) -> Result<T, Refusal>,
) -> Result<T, Trouble> {
    let Loaded { name, bytes, .. } = loaded;
    watched(doing, name, || ask(way, bytes))
        .map_err(|refusal| refused(refusal, line, || words::of_file(way, name, bytes, refusal)))
}

fn check_bytes(way: Way, loaded: &Loaded, line: bool) -> Result<Acceptance, Trouble> {
    of_file(way, loaded, line, "checking", ach::check)
}

fn check(way: Way, file: &Source, line: bool) -> Result<(), Trouble> {
    let loaded = load_file(way, file, line)?;
    let held = check_bytes(way, &loaded, line)?;
    if line {
        return say_line(Ok(held));
    }
    say(&format!("{}: accepted; {}\n", loaded.name, held_words(&held)))
}

fn show(way: Way, file: &Source) -> Result<(), Trouble> {
    let loaded = load_file(way, file, false)?;
    let held = check_bytes(way, &loaded, false)?;
    let table = of_file(way, &loaded, false, "reading", ach::table_of)?;
    stdout::page(|to| show::page(&loaded.name, &table, &held, to))
}

fn funds(way: Way, file: &Source, limit: &Amount, line: bool) -> Result<(), Trouble> {
    let loaded = load_file(way, file, line)?;
    let rows = of_file(way, &loaded, line, "checking", ach::rows_of)?;
    let answer = ach::runs_out(&rows, limit.number);
    if line {
        return say(&funds::line(answer));
    }
    let words = match answer.found {
        Some(row) => funds::words_of_batch(way, &loaded.bytes, row, limit),
        None => funds::words_of_none(&rows, limit),
    };
    let covered = funds::covered(answer, &rows);
    say(&format!("{}: {words}; batches covered: {covered}\n", loaded.name))
}

fn read(way: Way, file: &Source, target: &Target, line: bool) -> Result<(), Trouble> {
    let place = Place::open(target)?;
    let loaded = load_file(way, file, line)?;
    let table = of_file(way, &loaded, line, "reading", ach::table_of)?;
    let held = check_bytes(way, &loaded, line)?;
    let words = written(&place, &held, table.len(), line);
    place.put(&table, loaded.stamp, &words)
}

fn write(way: Way, table: &Source, target: &Target, line: bool) -> Result<(), Trouble> {
    let place = Place::open(target)?;
    let loaded = load_table(table, line)?;
    let Loaded { name, bytes, .. } = &loaded;
    let file = watched("writing from", name, || ach::file_of(way, bytes))
        .map_err(|refusal| refused(refusal, line, || words::of_table(name, bytes, refusal)))?;
    let words = written(&place, &held_by(way, &file)?, file.len(), line);
    place.put(&file, loaded.stamp, &words)
}

/// What a file holds that the library has made.
fn held_by(way: Way, file: &[u8]) -> Result<Acceptance, Trouble> {
    match ach::check(way, file) {
        Ok(held) => Ok(held),
        Err(_) => failed("the library refuses what it has just granted"),
    }
}

/// How much was written, and what the file holds that it stands for.
fn written(place: &Place, held: &Acceptance, length: usize, line: bool) -> String {
    if line {
        return line_of(Ok(*held));
    }
    format!("{}: {length} bytes written; {}\n", place.name(), held_words(held))
}

fn alter(
    way: Way,
    file: &Source,
    entry: &Entry,
    amount: &Amount,
    target: &Target,
    line: bool,
) -> Result<(), Trouble> {
    let place = Place::open(target)?;
    let mut loaded = load_file(way, file, line)?;
    let (name, bytes) = (&loaded.name, &mut loaded.bytes);
    let altered = watched("altering", name, || {
        let mut rows = ach::rows_of(way, bytes)?;
        ach::alter(way, bytes, &mut rows, entry.number, amount.number)
    });
    let difference = altered.map_err(|refusal| {
        refused(refusal, line, || words::of_alteration(way, name, bytes, refusal, entry, amount))
    })?;
    let words = if line {
        line_of(Ok(held_by(way, bytes)?))
    } else {
        let (number, old) = (entry.number, (amount.number as i64 - difference) as u64);
        let (old, new, change) = (spelled(old), spelled(amount.number), signed(difference));
        format!("{}: entry {number} from {old} to {new} ({change})\n", place.name())
    };
    place.put(bytes, loaded.stamp, &words)
}

fn remove(
    way: Way,
    file: &Source,
    recall: Recall,
    target: &Target,
    line: bool,
) -> Result<(), Trouble> {
    let place = Place::open(target)?;
    let mut asked = recall.entries;
    if let Some(list) = &recall.list {
        asked.extend(load_entries(list)?);
    }
    let numbers = recall::numbers(&asked)?;
    let mut loaded = load_file(way, file, line)?;
    let before = check_bytes(way, &loaded, line)?;
    let (name, bytes) = (&loaded.name, &mut loaded.bytes);
    // No more batches are left than there were.
    let mut rows = vec![0; 2 * before.batches as usize];
    let taking_out = || ach::take_out(way, bytes, &numbers, &mut rows);
    let length = watched("taking entries out of", name, taking_out).map_err(|refusal| {
        let words = || words::of_recall(way, name, bytes, refusal, &asked, before.entries);
        refused(refusal, line, words)
    })?;
    bytes.truncate(length);
    let after = held_by(way, bytes)?;
    let mut words = written(&place, &after, length, line);
    if !line {
        words += &format!("  taken out: {}\n", held_words(&difference(&before, &after)));
    }
    place.put(bytes, loaded.stamp, &words)
}

/// What was held before and is no longer.
fn difference(before: &Acceptance, after: &Acceptance) -> Acceptance {
    Acceptance {
        batches: before.batches - after.batches,
        entries: before.entries - after.entries,
        addenda: before.addenda - after.addenda,
        debit: before.debit - after.debit,
        credit: before.credit - after.credit,
        by_code: std::array::from_fn(|index| before.by_code[index] - after.by_code[index]),
    }
}

fn mend(way: Way, file: &Source, mending: &Mending, line: bool) -> Result<(), Trouble> {
    let Mending::Put { target, changes } = mending else {
        return mend_dry(way, file, line);
    };
    let place = Place::open(target)?;
    let second = changes.as_deref().map(SecondPlace::open).transpose()?;
    let loaded = load_file(way, file, line)?;
    let mended = mended(way, &loaded, line)?;
    let mut words = written(&place, &held_by(way, &mended.file)?, mended.file.len(), line);
    if !line {
        words += &mend::words(&mended.changes(), mended.file == loaded.bytes);
    }
    let second = second.map(|second| second.ready(&mended.list)).transpose()?;
    place.put_with(&mended.file, loaded.stamp, second, &words)
}

/// Says what mending would change.
fn mend_dry(way: Way, file: &Source, line: bool) -> Result<(), Trouble> {
    let loaded = load_file(way, file, line)?;
    let mended = mended(way, &loaded, line)?;
    let held = held_by(way, &mended.file)?;
    if line {
        return say_line(Ok(held));
    }
    let (name, length, held) = (&loaded.name, mended.file.len(), held_words(&held));
    let changes = mend::words(&mended.changes(), mended.file == loaded.bytes);
    say(&format!("{name}: nothing written; mended, {length} bytes; {held}\n{changes}"))
}

fn mended(way: Way, loaded: &Loaded, line: bool) -> Result<Mended, Trouble> {
    let Loaded { name, bytes, .. } = loaded;
    watched("mending", name, || ach::mend(way, bytes))
        .map_err(|refusal| refused(refusal, line, || words::of_mending(way, name, bytes, refusal)))
}

fn addendum(way: Way, file: &Source, entry: &Entry) -> Result<(), Trouble> {
    let Loaded { name, bytes, .. } = load_file(way, file, false)?;
    let text = watched("reading", &name, || ach::addendum(way, &bytes, entry.number)).map_err(
        |refusal| Trouble::Refused(words::of_addendum(way, &name, &bytes, refusal, entry)),
    )?;
    if text.is_empty() {
        let _ = writeln!(io::stderr().lock(), "{name}: entry {} has no addendum", entry.number);
        return Ok(());
    }
    say(&format!("{}\n", show::trimmed(text)))
}

fn import(list: &Source, rows: &Rows, target: &Target, line: bool) -> Result<(), Trouble> {
    let place = Place::open(target)?;
    let (file_row, batch_row) = (load_row(&rows.file)?, load_row(&rows.batch)?);
    let Loaded { name, bytes, stamp, whole } = load_list(list)?;
    let given = Import { file_row: &file_row, batch_row: &batch_row, list: &bytes };
    let answer = watched("importing", &name, || ach::import(&file_row, &batch_row, &bytes));
    let of_first_line = matches!(answer, Err(Refusal { number: 29, record: 1, .. }));
    if !whole && !of_first_line {
        return failed(format!("{name}: the library takes a first line that is none"));
    }
    let table = answer.map_err(|refusal| {
        refused(refusal, line, || list_words::of_import(&name, &given, refusal))
    })?;
    let words = written(&place, &held_by_table(&table)?, table.len(), line);
    place.put(&table, stamp, &words)
}

fn export(table: &Source, target: &Target, line: bool) -> Result<(), Trouble> {
    let place = Place::open(target)?;
    let Loaded { name, bytes, stamp, .. } = load_table(table, line)?;
    let lines = watched("exporting", &name, || ach::export(&bytes))
        .map_err(|refusal| refused(refusal, line, || words::of_table(&name, &bytes, refusal)))?;
    let held = held_by_table(&bytes)?;
    let words = if line {
        line_of(Ok(held))
    } else {
        list_words::of_export(place.name(), lines.len(), &held, &bytes)
    };
    place.put(&lines, stamp, &words)
}

/// What the file of a table holds, which is the same in both ways.
fn held_by_table(table: &[u8]) -> Result<Acceptance, Trouble> {
    match ach::file_of(Way::Plain, table) {
        Ok(file) => held_by(Way::Plain, &file),
        Err(_) => failed("the library refuses what it has just granted"),
    }
}
