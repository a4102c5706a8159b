//! `ach remove` on good, refused and missing files, with entries as words and in a list.

mod common;

use common::{fed, mode, wrong_total, Folder, GAPS, GAPS_LINED, WHOLE};
use generate::lines::lined;
use generate::recalls::random_recall;
use std::fs;
use std::os::unix::fs::PermissionsExt;
use std::path::Path;

const RECALLED: &[u8] = include_bytes!("../../../samples/recalled.ach");
const HELD: &str = "batches 1, entries 2, addenda 0, debits 0.00, credits 3296.10";
const GONE: &str = "  taken out: batches 1, entries 4, addenda 0, debits 0.00, credits 5710.25\n";

/// What is said when the four are recalled.
fn said(name: &Path, length: usize) -> String {
    format!("{}: {length} bytes written; {HELD}\n{GONE}", name.display())
}

#[test]
fn four_payments_are_recalled() {
    let folder = Folder::new();
    let (file, new) = (folder.with("gaps.ach", GAPS), folder.path("new.ach"));
    ach!("remove", file, "2", "3", "5-6", "-o", new).is(0, &said(&new, 940), "");
    assert_eq!(fs::read(&new).unwrap(), RECALLED);
    assert_eq!(fs::read(&file).unwrap(), GAPS);
    ach!("check", new, "--line").is(0, "OK 1 2 0 0 329610\n", "");
    // In any order, repeats and overlapping ranges too; one line is that of the new file.
    let run = ach!("remove", file, "5-6", "3", "2-3", "6", "-o", new, "--force", "--line");
    run.is(0, "OK 1 2 0 0 329610\n", "");
    assert_eq!(fs::read(&new).unwrap(), RECALLED);
    ach!("remove", file, "1", "-o", new).fails_with("there is such a file already; --force");
    assert_eq!(folder.names(), ["gaps.ach", "new.ach"]);
}

#[test]
fn in_place() {
    let folder = Folder::new();
    let file = folder.with("gaps.ach", GAPS);
    fs::set_permissions(&file, fs::Permissions::from_mode(0o640)).unwrap();
    ach!("remove", file, "2-3", "5-6", "--in-place").is(0, &said(&file, 940), "");
    assert_eq!(fs::read(&file).unwrap(), RECALLED);
    assert_eq!(mode(&file), 0o640);
    // Numbers are those of the file as it is now.
    ach!("remove", file, "3", "--in-place", "--line").is(1, "NO 25 0 0\n", "");
    ach!("remove", file, "2", "--in-place", "--line").is(0, "OK 1 1 0 0 142050\n", "");
    ach!("remove", file, "1", "--in-place", "--line").is(1, "NO 27 0 0\n", "");
    ach!("check", file, "--line").is(0, "OK 1 1 0 0 142050\n", "");
    assert_eq!(folder.names(), ["gaps.ach"]);
}

#[test]
fn with_line_ends() {
    let folder = Folder::new();
    let (file, new) = (folder.with("gaps.ach", GAPS_LINED), folder.path("new.ach"));
    ach!("remove", file, "2", "3", "5-6", "--lined", "-o", new).is(0, &said(&new, 960), "");
    assert_eq!(fs::read(&new).unwrap(), lined(RECALLED));
    ach!("remove", "--lined", file, "2-3", "5-6", "--in-place").is(0, &said(&file, 960), "");
    assert_eq!(fs::read(&file).unwrap(), lined(RECALLED));
    let run = ach!("remove", file, "1", "--in-place");
    assert!(run.status == 1 && run.err.contains("--lined is for files with line ends"), "{run:?}");
    let plain = folder.with("plain.ach", GAPS);
    ach!("remove", plain, "1", "--lined", "--in-place", "--line").is(1, "NO 1 0 0\n", "");
    assert_eq!(fs::read(&plain).unwrap(), GAPS);
}

#[test]
fn from_a_stream_and_to_one() {
    let text = String::from_utf8(RECALLED.to_vec()).unwrap();
    let said = format!("standard output: 940 bytes written; {HELD}\n{GONE}");
    fed(&["remove", "-", "2", "3", "5", "6", "-o", "-"], GAPS).is(0, &text, &said);
    let run = fed(&["remove", "-", "7", "-o", "-"], GAPS);
    run.refused_with("25", "standard input", "entry 7\n");
}

#[test]
fn a_list_of_entries() {
    let folder = Folder::new();
    let (file, new) = (folder.with("gaps.ach", GAPS), folder.path("new.ach"));
    let list = folder.with("list", b"6\r\n\r\n2-3\r\n 5 \r\n6");
    ach!("remove", file, "--list", list, "-o", new).is(0, &said(&new, 940), "");
    assert_eq!(fs::read(&new).unwrap(), RECALLED);
    let list = folder.with("list", b"6\n5\n");
    let run = ach!("remove", file, "2", "3", "--list", list, "-o", new, "--force");
    run.is(0, &said(&new, 940), "");
    // No entries at all: granted, and the file is the one it was.
    let list = folder.with("list", b"\n");
    let run = ach!("remove", file, "--list", list, "-o", new, "--force");
    assert_eq!(run.status, 0, "{run:?}");
    assert!(run.out.contains("\n  taken out: batches 0, entries 0, addenda 0, "), "{run:?}");
    assert_eq!(fs::read(&new).unwrap(), GAPS);
    assert_eq!(folder.names(), ["gaps.ach", "list", "new.ach"]);
}

#[test]
fn a_list_that_is_none() {
    let folder = Folder::new();
    let (file, new) = (folder.with("gaps.ach", GAPS), folder.path("new.ach"));
    for (bytes, line) in [(&b"E-1001"[..], 1), (b"1\n2,3", 2), (b"1\n\n7-3\n", 3), (b"\xFF", 1)] {
        let list = folder.with("list", bytes);
        let words = format!("list: line {line} is not an entry's number or a range such as 3-7");
        ach!("remove", file, "--list", list, "-o", new).fails_with(&words);
    }
    let list = folder.with("list", "1\n".repeat(5_000_001).as_bytes());
    let words = "list: more than 10000000 bytes are not read as a list of entries";
    ach!("remove", file, "--list", list, "-o", new).fails_with(words);
    let list = folder.with("list", "1-999999\n".repeat(11).as_bytes());
    let words = "more than 10000000 entries are not taken out at once";
    ach!("remove", file, "--list", list, "-o", new).fails_with(words);
    ach!("remove", file, "--list", folder.path("none"), "-o", new).fails_with("No such file");
    ach!("remove", file, "--list", "-", "-o", new).fails_with("--list wants a file");
    assert_eq!(folder.names(), ["gaps.ach", "list"]);
}

#[test]
fn numbers_that_no_entry_has() {
    let folder = Folder::new();
    let (file, new) = (folder.with("gaps.ach", GAPS), folder.path("new.ach"));
    let huge = "9".repeat(30);
    for (entries, stands) in [
        (vec!["0"], "entry 0"),
        (vec!["7"], "entry 7"),
        (vec!["1", "5-9", "0"], "entry 7, given as 5-9"),
        (vec!["1-6", "0-2"], "entry 0, given as 0-2"),
        (vec!["8-9"], "entry 8, given as 8-9"),
        (vec!["2-18446744073709551615"], "entry 7, given as 2-18446744073709551615"),
        (vec![huge.as_str()], &format!("entry {huge}")),
    ] {
        let words = format!(
            "{}: refused, 25: there is no entry of this number
  stands {stands}
  due    an entry from 1 to 6
",
            file.display()
        );
        let mut arguments = vec!["remove", "-o", new.to_str().unwrap(), file.to_str().unwrap()];
        arguments.extend(entries);
        common::ach(&arguments).is(1, "", &words);
        arguments.push("--line");
        common::ach(&arguments).is(1, "NO 25 0 0\n", "");
    }
    let list = folder.with("list", b"1\n\n5-9\n");
    let run = ach!("remove", file, "--list", list, "-o", new);
    run.refused_with("25", file.to_str().unwrap(), "entry 7, given as 5-9, line 3 of the list\n");
    assert_eq!(folder.names(), ["gaps.ach", "list"]);
}

#[test]
fn no_entry_would_be_left() {
    let folder = Folder::new();
    let (file, new) = (folder.with("gaps.ach", GAPS), folder.path("new.ach"));
    let words = format!(
        "{}: refused, 27: no entry would be left
  stands all entries are to be taken out, 1 to 6
  due    at least one entry that stays; if none is to be paid, do not send the file
",
        file.display()
    );
    ach!("remove", file, "1-6", "-o", new).is(1, "", &words);
    ach!("remove", file, "4-6", "1-3", "--in-place").is(1, "", &words);
    ach!("remove", file, "1-6", "-o", new, "--line").is(1, "NO 27 0 0\n", "");
    assert_eq!(fs::read(&file).unwrap(), GAPS);
    assert_eq!(folder.names(), ["gaps.ach"]);
}

/// The file's own refusal comes first, with the words that `ach check` has for it.
#[test]
fn a_file_that_is_refused() {
    let folder = Folder::new();
    let wrong = wrong_total(WHOLE);
    let (file, new) = (folder.with("bad.ach", &wrong), folder.path("new.ach"));
    let checked = ach!("check", file);
    for entries in ["1", "9", "1-2", "0"] {
        ach!("remove", file, entries, "-o", new).is(1, "", &checked.err);
        ach!("remove", file, entries, "--in-place").is(1, "", &checked.err);
        ach!("remove", file, entries, "-o", new, "--line").is(1, "NO 21 6 6\n", "");
    }
    ach!("remove", folder.path("none"), "1", "-o", new).fails_with("No such file");
    assert_eq!(fs::read(&file).unwrap(), wrong);
    assert_eq!(folder.names(), ["bad.ach"]);
}

/// What `ach write` makes of the table without the rows, whatever is recalled.
#[test]
fn random_recalls() {
    let folder = Folder::new();
    let mut random = generate::Random::new(7);
    for number in 0..20 {
        let plan = generate::plan(&mut random, 3, 5);
        let list: Vec<u64> = random_recall(&mut random, &plan);
        let rest = plan.without(&list);
        let in_file = |entry: &u64| (1..=plan.entry_count() as u64).contains(entry);
        let granted = list.iter().all(in_file) && !rest.batches.is_empty();
        let lines: String = list.iter().map(|entry| format!("{entry}\n")).collect();
        let list = folder.with("list", lines.as_bytes());
        for (options, file, expected) in [
            (vec![], plan.file(), rest.file()),
            (vec!["--lined"], plan.lined_file(), rest.lined_file()),
        ] {
            let (file, new) = (folder.with("file", &file), folder.path(format!("new-{number}")));
            let mut arguments = ["remove", "--force", "--line", "--list"].map(Into::into).to_vec();
            arguments.extend([list.clone().into_os_string(), file.into(), "-o".into()]);
            arguments.push(new.clone().into_os_string());
            arguments.extend(options.into_iter().map(Into::into));
            let run = common::ach(&arguments);
            assert_eq!(run.status, i32::from(!granted), "{run:?}");
            if granted {
                assert_eq!(fs::read(&new).unwrap(), expected);
            }
        }
    }
}

#[test]
fn misuse() {
    let folder = Folder::new();
    let file = folder.with("gaps.ach", GAPS);
    ach!("remove", file, "-o", folder.path("new")).fails_with("which entries?");
    ach!("remove", file, "7-3", "--in-place").fails_with("lower number first, 3-7, not 7-3");
    ach!("remove", file, "1").fails_with("where to?");
    ach!("remove", file, "1", "--in-place", "-o", "x").fails_with("exclude each other");
    ach!("remove").fails_with("FILE ENTRY.. is wanted");
    assert_eq!(fs::read(&file).unwrap(), GAPS);
    assert_eq!(folder.names(), ["gaps.ach"]);
}
