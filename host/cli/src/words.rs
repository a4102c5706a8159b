//! Refusals in words that a clerk can act on: where, what stands there, what is due, and whether
//! the other way of a file may have been meant.

use crate::due::{next_types, RefusedField};
use crate::formed;
use crate::money::spelled;
use crate::options::Written;
use crate::recall::Entries;
use crate::text::{columns, plain_text};
use ach::fields::{record_type, COLUMNS};
use ach::{Refusal, Way};

/// Where a refused thing stands, what it is, what it should be, and what may help; empty lines are
/// left out.
#[derive(Default)]
pub struct Explanation {
    pub place: String,
    pub stands: String,
    pub due: String,
    pub hint: &'static str,
}

impl Explanation {
    pub fn lines(&self, name: &str, refusal: Refusal) -> String {
        let number = refusal.number;
        let reason = ach::reason(number).unwrap_or("an unknown reason");
        let mut lines = format!("{name}: refused, {number}: {reason}\n");
        for (label, line) in [
            ("where", self.place.as_str()),
            ("stands", &self.stands),
            ("due", &self.due),
            ("hint", self.hint),
        ] {
            if !line.is_empty() {
                lines += &format!("  {label:<7}{line}\n");
            }
        }
        lines
    }
}

/// A file's own refusal.
pub fn of_file(way: Way, name: &str, file: &[u8], refusal: Refusal) -> String {
    let mut explanation = match refusal.number {
        1 => length(way, file),
        26 => line_end(way, file, refusal),
        _ => in_records(way, file, refusal),
    };
    explanation.hint = match hint(way, file) {
        "" if ach::mend(way, file).is_ok() => {
            "`ach mend` would bring controls and fillers in line with the other records"
        }
        hint => hint,
    };
    explanation.lines(name, refusal)
}

/// A refusal to mend: that of the mended file, which differs from the file in its controls and
/// fillers alone, or what stands in the place of fillers.
pub fn of_mending(way: Way, name: &str, file: &[u8], refusal: Refusal) -> String {
    if refusal.number != 4 {
        return of_file(way, name, file, refusal);
    }
    let start = (refusal.record as usize).saturating_sub(1) * way.record_length();
    let record = file.get(start..start + COLUMNS).unwrap_or_default();
    Explanation {
        place: format!("record {}, behind the file control", refusal.record),
        stands: plain_text(record),
        due: "a filler of 94 nines, or nothing: other records there are not mended away".into(),
        ..Explanation::default()
    }
    .lines(name, refusal)
}

/// Whether the other way may have been meant. It is said and not acted upon.
fn hint(asked: Way, file: &[u8]) -> &'static str {
    let looks_like = |way: Way| {
        let whole = !file.is_empty() && file.len().is_multiple_of(way.record_length());
        let first_end = file.get(COLUMNS..Way::Lined.record_length());
        let lined = first_end == Some(Way::Lined.line_end());
        whole && lined == (way == Way::Lined)
    };
    match asked {
        Way::Plain if looks_like(Way::Lined) => {
            "CR LF stands behind the first record: --lined is for files with line ends"
        }
        Way::Lined if looks_like(Way::Plain) => {
            "the length is that of records without line ends: leave out --lined for those"
        }
        _ => "",
    }
}

pub fn of_long_file(way: Way, name: &str) -> String {
    let stands = format!("more than {} bytes", way.longest_file());
    Explanation { stands, due: due_length(way), ..Explanation::default() }
        .lines(name, Refusal::without_place(1))
}

pub fn of_long_table(name: &str) -> String {
    let stands = format!("more than {} bytes", ach::LONGEST_TABLE);
    let due = "at most 999999 batches, entries and addenda".into();
    Explanation { stands, due, ..Explanation::default() }.lines(name, Refusal::without_place(24))
}

/// A refusal of the file that a table would become.
pub fn of_table(name: &str, table: &[u8], refusal: Refusal) -> String {
    let explanation = match refusal.number {
        24 => shape(table),
        1 => Explanation {
            stands: "a table whose file would have more than 1000000 records".into(),
            due: "fewer payments in one file".into(),
            ..Explanation::default()
        },
        _ => in_formed(table, refusal),
    };
    explanation.lines(name, refusal)
}

/// A record of the file that a table of right shape would become.
pub fn in_formed(table: &[u8], refusal: Refusal) -> Explanation {
    let records = formed::records(table, refusal.record as usize);
    let mut explanation = in_records(Way::Plain, &records, refusal);
    explanation.place = format!("{} of the file to be written", explanation.place);
    let last = records.rchunks_exact(COLUMNS).next();
    if last.is_some_and(|record| matches!(record[0], b'8' | b'9')) {
        // The control's own text is not known here, only its type.
        explanation.stands = String::new();
        if refusal.number == 20 {
            explanation.due = format!("a sum of at most {}", spelled(999_999_999_999));
        }
    }
    explanation
}

/// A refusal to alter: the file's own, or if it is in order that of the entry or the amount.
pub fn of_alteration(
    way: Way,
    name: &str,
    file: &[u8],
    refusal: Refusal,
    entry: &Written,
    amount: &Written,
) -> String {
    if ach::check(way, file).is_err() {
        return of_file(way, name, file, refusal);
    }
    let explanation = match refusal.number {
        25 => no_entry(way, file, &entry.text),
        14 => {
            let mut explanation = in_records(way, file, refusal);
            explanation.stands += &format!("; asked for is {}", amount.text);
            explanation
        }
        20 => Explanation {
            place: in_records(way, file, refusal).place,
            stands: format!("with {} for entry {} the sum is too large", amount.text, entry.text),
            due: format!("a sum of at most {}", spelled(999_999_999_999)),
            ..Explanation::default()
        },
        _ => return of_file(way, name, file, refusal),
    };
    explanation.lines(name, refusal)
}

/// A refusal to give an entry's addendum.
pub fn of_addendum(way: Way, name: &str, file: &[u8], refusal: Refusal, entry: &Written) -> String {
    match refusal.number {
        25 => no_entry(way, file, &entry.text).lines(name, refusal),
        _ => of_file(way, name, file, refusal),
    }
}

/// A refusal to take entries out of a file that is in order and has so many.
pub fn of_recall(
    way: Way,
    name: &str,
    file: &[u8],
    refusal: Refusal,
    asked: &[Entries],
    entries: u64,
) -> String {
    let explanation = match refusal.number {
        25 => {
            let outside = asked.iter().find_map(|asked| asked.outside(entries));
            no_entry(way, file, &outside.unwrap_or_default())
        }
        27 => Explanation {
            stands: format!("all entries are to be taken out, 1 to {entries}"),
            due: "at least one entry that stays; if none is to be paid, do not send the file"
                .into(),
            ..Explanation::default()
        },
        _ => return of_file(way, name, file, refusal),
    };
    explanation.lines(name, refusal)
}

fn no_entry(way: Way, file: &[u8], entry: &str) -> Explanation {
    let entries = ach::check(way, file).map_or(0, |held| held.entries);
    Explanation {
        stands: format!("entry {entry}"),
        due: format!("an entry from 1 to {entries}"),
        ..Explanation::default()
    }
}

/// The way that was asked for, as the lengths and line ends that it has.
fn due_length(way: Way) -> String {
    let (one, most) = (way.record_length(), way.longest_file());
    let records = match way {
        Way::Plain => "records back to back, no line ends",
        Way::Lined => "with --lined, CR LF behind every record, the last one too",
    };
    format!("a multiple of {one} bytes, from {one} to {most}: {records}")
}

fn length(way: Way, file: &[u8]) -> Explanation {
    let one = way.record_length();
    let mut stands = match file.len() {
        0 => "nothing: the file is empty".to_string(),
        length => format!("{length} bytes: {} records and {} bytes", length / one, length % one),
    };
    stands += &line_feeds(way, file);
    Explanation { stands, due: due_length(way), ..Explanation::default() }
}

/// What is to be said of the line ends in a file of wrong length.
fn line_feeds(way: Way, file: &[u8]) -> String {
    let all = file.iter().filter(|byte| **byte == b'\n').count();
    let lone = all - file.windows(2).filter(|pair| *pair == b"\r\n").count();
    match way {
        Way::Plain if all > 0 => format!("; there are {all} line ends among them"),
        Way::Lined if all == 0 && !file.is_empty() => "; there are no line ends among them".into(),
        Way::Lined if lone > 0 => format!("; {lone} of {all} line feeds have no CR before them"),
        _ => String::new(),
    }
}

/// What stands behind the columns of a record, all of which are in order.
fn line_end(way: Way, file: &[u8], refusal: Refusal) -> Explanation {
    let start = (refusal.record as usize).saturating_sub(1) * way.record_length();
    let Some(record) = file.get(start..start + way.record_length()) else {
        return Explanation::default();
    };
    let (columns, end) = record.split_at(COLUMNS);
    let name = if columns.iter().all(|byte| *byte == b'9') {
        format!("record {}, a filler", refusal.record)
    } else {
        record_name(way, file, refusal)
    };
    Explanation {
        place: format!("{name}, behind column {COLUMNS}"),
        stands: plain_text(end),
        due: format!("{}, CR LF behind every record", plain_text(way.line_end())),
        ..Explanation::default()
    }
}

fn shape(table: &[u8]) -> Explanation {
    let mut explanation = Explanation {
        stands: format!("{} bytes", table.len()),
        due: "a count of six digits before each section: header (1), batches, entries, addenda"
            .into(),
        ..Explanation::default()
    };
    if let Some(sections) = formed::Sections::of(table) {
        let batches = sections.batches().count();
        let in_batches: usize = sections.batches().map(|batch| batch.entries).sum();
        let (entries, addenda) = (sections.entries.len() / 93, sections.addenda.len() / 80);
        let flagged = sections.entries.chunks(93).filter(|row| row[77] == b'1').count();
        explanation.stands = format!(
            "{} bytes, {batches} batches with {in_batches} entries, {entries} entries with \
             {flagged} addenda, {addenda} addenda",
            table.len()
        );
        let due = 109 + 95 * batches + 93 * entries + 80 * addenda;
        explanation.due = format!("{due} bytes, digits for counts, and numbers that agree");
    }
    explanation
}

fn in_records(way: Way, file: &[u8], refusal: Refusal) -> Explanation {
    if let Some(refused) = RefusedField::of(way, file, refusal) {
        let RefusedField { field, record, .. } = refused;
        return Explanation {
            place: format!(
                "{}, field {} {}, {}",
                record_name(way, file, refusal),
                refusal.field,
                field.name,
                columns(field.first, field.last)
            ),
            stands: plain_text(field.of(record)),
            due: refused.due().to_string(),
            ..Explanation::default()
        };
    }
    let before = (refusal.record as usize).saturating_sub(1);
    let start = before * way.record_length();
    let (stands, due) = match (refusal.number, file.get(start..start + COLUMNS)) {
        (2, _) => {
            let due = next_types(way, file).to_string();
            (format!("nothing: the file ends with record {before}"), due)
        }
        (4, Some(record)) => {
            (plain_text(record), format!("nothing: the file is full with record {before}"))
        }
        (_, Some(record)) => (plain_text(record), "a filler of 94 nines".into()),
        (_, None) => (String::new(), String::new()),
    };
    Explanation {
        place: format!("record {}", refusal.record),
        stands,
        due,
        ..Explanation::default()
    }
}

/// Such as "record 4, entry 2".
fn record_name(way: Way, file: &[u8], refusal: Refusal) -> String {
    let number = refusal.record;
    if refusal.number == 3 {
        return format!("record {number}");
    }
    let length = way.record_length();
    let start = (number as usize - 1) * length;
    let up_to = file[..start].chunks_exact(length).chain([&file[start..]]);
    let entries = up_to.filter(|record| record[0] == b'6').count();
    let digit = file[start];
    let name = record_type(digit).map_or("", |known| known.name);
    match digit {
        b'6' => format!("record {number}, type 6 {name} {entries}"),
        b'7' => format!("record {number}, type 7 {name} of entry {entries}"),
        _ => format!("record {number}, type {} {name}", char::from(digit)),
    }
}
