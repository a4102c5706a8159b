//! The files in the folder `samples`: accepted ones after the banks' documents and after the
//! story, refused ones made from them. What has to be said of each stands in `samples/index`, and
//! in `samples/index-lined` for files with CR LF behind every record, in `samples/index-lists` for
//! client lists, in `samples/index-funds` for limits that run out, and in `samples/index-mended` for
//! refused files that are mended; all were written from the rules and by nobody's program.

mod accepted;
mod lined;
mod lists;
mod refused;
mod sample;

use std::collections::BTreeMap;

pub use sample::Sample;

/// All files but the index and the explanations.
pub fn all() -> Vec<Sample> {
    [accepted::all(), refused::all(), lined::all(), lists::all()].into_iter().flatten().collect()
}

/// The same files by name; a test holds them equal to those in the folder.
pub fn by_name() -> BTreeMap<String, Vec<u8>> {
    all().into_iter().map(|sample| (sample.name, sample.bytes)).collect()
}

/// Every file without line ends that is checked, and the line that has to be printed for it.
pub fn index() -> Vec<(&'static str, &'static str)> {
    entries_of(include_str!("../../../samples/index"))
}

/// Every file that is checked as one with CR LF behind every record, and the line due.
pub fn lined_index() -> Vec<(&'static str, &'static str)> {
    entries_of(include_str!("../../../samples/index-lined"))
}

/// Every list that is imported with the rows `team.file-row` and `team.batch-row`, and the line due:
/// that of the file which its table is written to, or that of its refusal.
pub fn list_index() -> Vec<(&'static str, &'static str)> {
    entries_of(include_str!("../../../samples/index-lists"))
}

/// Files with a limit such as 1234.56, and the line due for where it runs out.
pub fn funds_index() -> Vec<(&'static str, &'static str, &'static str)> {
    let entries = entries_of(include_str!("../../../samples/index-funds"));
    let split = |(name, rest): (&'static str, &'static str)| {
        let (limit, line) = rest.split_once(' ').expect("a limit and a line");
        (name, limit, line)
    };
    entries.into_iter().map(split).collect()
}

/// Every refused file, and what mending makes of it; the way is that of its name.
pub fn mended_index() -> Vec<(&'static str, Mending)> {
    let entries = entries_of(include_str!("../../../samples/index-mended"));
    let read = |(name, rest): (&'static str, &'static str)| match rest.split_once(' ') {
        Some(("OK", rest)) => {
            let (file, changes) = rest.split_once(' ').expect("a file and its changes");
            (name, Mending::Cured { file, changes })
        }
        _ => (name, Mending::Refused { line: rest }),
    };
    entries.into_iter().map(read).collect()
}

/// What mending makes of a file.
pub enum Mending {
    /// Another file of the folder, and the list of what was changed.
    Cured { file: &'static str, changes: &'static str },
    /// The line of the refusal.
    Refused { line: &'static str },
}

fn entries_of(index: &'static str) -> Vec<(&'static str, &'static str)> {
    let lines = index.lines();
    lines.map(|line| line.split_once(' ').expect("a name and a line")).collect()
}
