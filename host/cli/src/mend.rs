//! What mending changed, in words.

use crate::text::plain_text;
use ach::fields::{record_type, Kind, RecordType, Sum};
use ach::{Change, Changes, Fillers};

/// A line for each change, and what has to be said of them all.
pub fn words(changes: &Changes, same_file: bool) -> String {
    let mut lines = String::new();
    let mut counts_or_totals = false;
    for (digit, listed) in [(b'8', &changes.batch_controls), (b'9', &changes.file_control)] {
        let Some(control) = record_type(digit) else {
            continue;
        };
        for change in listed {
            lines += &field_line(control, change);
            counts_or_totals |= is_of_entries(control, change.field);
        }
    }
    if let Some(Fillers { old, new }) = changes.fillers {
        let old = old.map_or("more than 9".into(), |old| old.to_string());
        lines += &format!("  fillers: {old}, now {new}\n");
    }
    if counts_or_totals {
        lines += "  note   the entries were believed: see that none is missing, added or altered\n";
    }
    match (changes.is_empty(), same_file) {
        (true, true) => "  nothing was wrong\n".into(),
        (true, false) => "  line ends of fillers, now CR LF\n".into(),
        _ => lines,
    }
}

/// Such as "record 6, batch control, field 4 Entry hash: 0000000000, now 0064414076".
fn field_line(control: &RecordType, change: &Change) -> String {
    let Change { record, field, old, new } = *change;
    let name = control.field(field).map_or("", |field| field.name);
    let (old, new) = (shown(old), shown(new));
    format!("  record {record}, {}, field {field} {name}: {old}, now {new}\n", control.name)
}

/// In quotes only where it would not be seen without.
fn shown(text: &[u8]) -> String {
    match std::str::from_utf8(text) {
        Ok(visible) if text.iter().all(u8::is_ascii_graphic) => visible.into(),
        _ => plain_text(text),
    }
}

/// Whether the field says how many entries there are, or what they come to.
fn is_of_entries(control: &RecordType, field: u8) -> bool {
    match control.field(field).map(|field| field.kind) {
        Some(Kind::Count(sum)) => !matches!(sum, Sum::Blocks),
        Some(Kind::Hash(_) | Kind::Total(_)) => true,
        _ => false,
    }
}
