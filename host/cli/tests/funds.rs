//! `ach funds` on good, refused and missing files.

mod common;

use common::{fed, Folder, GAPS, GAPS_LINED, WHOLE};
use generate::{is_credit, Batch, Random};
use std::fs;
use std::path::Path;

#[test]
fn where_a_limit_runs_out() {
    let folder = Folder::new();
    let file = folder.with("gaps.ach", GAPS);
    let name = file.display();
    let first = "runs out with batch 0000001, record 7: credits so far 6846.10";
    let second = "runs out with batch 0000002, record 11: credits so far 9006.35";
    let none = "none: credits of 9006.35 do not exceed";
    for (limit, words, line) in [
        ("0", format!("0 {first}; batches covered: 0 of 2"), "OK 1 7 684610"),
        ("6846.09", format!("6846.09 {first}; batches covered: 0 of 2"), "OK 1 7 684610"),
        // Just the limit is not more than it.
        ("6846.10", format!("6846.10 {second}; batches covered: 1 of 2"), "OK 2 11 900635"),
        ("9006.34", format!("9006.34 {second}; batches covered: 1 of 2"), "OK 2 11 900635"),
        ("9006.35", format!("{none} 9006.35; batches covered: 2 of 2"), "OK 2 0 0"),
        ("10000", format!("{none} 10000; batches covered: 2 of 2"), "OK 2 0 0"),
    ] {
        ach!("funds", file, limit).is(0, &format!("{name}: {words}\n"), "");
        ach!("funds", "--line", file, limit).is(0, &format!("{line}\n"), "");
    }
    assert_eq!(fs::read(&file).unwrap(), GAPS);
    assert_eq!(folder.names(), ["gaps.ach"]);
}

#[test]
fn every_sample_with_a_limit() {
    let folder = Path::new(concat!(env!("CARGO_MANIFEST_DIR"), "/../../samples"));
    for (name, limit, line) in samples::funds_index() {
        let status = i32::from(line.starts_with("NO "));
        let run = ach!("funds", folder.join(name), limit, "--line");
        run.is(status, &format!("{line}\n"), "");
    }
    let file = folder.join("prefunded.ach");
    let words = "3500.00 runs out with batch 0000008, record 16: credits so far 4750.25";
    let words = format!("{}: {words}; batches covered: 3 of 5\n", file.display());
    ach!("funds", file, "3500.00").is(0, &words, "");
}

/// A limit beyond 64 bits is more than any file has.
#[test]
fn a_limit_without_end() {
    let run = fed(&["funds", "-", &"9".repeat(30)], GAPS);
    let words = format!("none: credits of 9006.35 do not exceed {}", "9".repeat(30));
    run.is(0, &format!("standard input: {words}; batches covered: 2 of 2\n"), "");
    fed(&["funds", "-", &"9".repeat(30), "--line"], GAPS).is(0, "OK 2 0 0\n", "");
}

#[test]
fn with_line_ends() {
    let folder = Folder::new();
    let file = folder.with("gaps.ach", GAPS_LINED);
    let words = "8000.00 runs out with batch 0000002, record 11: credits so far 9006.35";
    let words = format!("{}: {words}; batches covered: 1 of 2\n", file.display());
    ach!("funds", file, "8000.00", "--lined").is(0, &words, "");
    ach!("funds", file, "8000.00", "--lined", "--line").is(0, "OK 2 11 900635\n", "");
    let run = ach!("funds", file, "8000.00");
    assert!(run.status == 1 && run.err.contains("--lined is for files with line ends"), "{run:?}");
}

/// The file's own refusal comes with the words that `ach check` has for it.
#[test]
fn a_file_that_is_refused() {
    let folder = Folder::new();
    let mut wrong = WHOLE.to_vec();
    wrong[5 * 94 + 43] = b'1';
    let file = folder.with("bad.ach", &wrong);
    ach!("funds", file, "1.00").is(1, "", &ach!("check", file).err);
    ach!("funds", file, "1.00", "--line").is(1, "NO 21 6 6\n", "");
    let empty = folder.with("empty.ach", b"");
    ach!("funds", empty, "1.00", "--line").is(1, "NO 1 0 0\n", "");
    ach!("funds", folder.path("none"), "1.00").fails_with("No such file");
    ach!("funds", folder.path(""), "1.00").fails_with("this is a folder, not a file");
}

#[test]
fn misuse() {
    let folder = Folder::new();
    let file = folder.with("gaps.ach", GAPS);
    ach!("funds", file).fails_with("FILE LIMIT is wanted behind the command, not 1 words");
    ach!("funds", file, "1.5").fails_with("an amount is written 1234.56 or 1234, not 1.5");
    ach!("funds", file, "1.00", "-o", "x").fails_with("funds does not take -o here");
    ach!("funds", file, "1.00", "--force").fails_with("funds does not take --force here");
}

/// An alteration and a recall move the batch with which the limit runs out.
#[test]
fn after_an_alteration_and_a_recall() {
    let folder = Folder::new();
    let file = folder.with("gaps.ach", GAPS);
    let line = |expected: &str| ach!("funds", file, "6846.10", "--line").is(0, expected, "");
    line("OK 2 11 900635\n");
    assert_eq!(ach!("alter", file, "4", "1875.61", "--in-place").status, 0);
    line("OK 1 7 684611\n");
    assert_eq!(ach!("remove", file, "1", "--in-place").status, 0);
    line("OK 2 10 758586\n");
    assert_eq!(ach!("remove", file, "1-3", "--in-place").status, 0);
    line("OK 1 0 0\n");
}

/// The answer is the one from summing every entry, whatever the file.
#[test]
fn of_random_files() {
    let folder = Folder::new();
    let mut random = Random::new(88);
    for _ in 0..10 {
        let plan = generate::plan(&mut random, 5, 4);
        let file = folder.with("file", &plan.lined_file());
        let credits = |batches: &[Batch]| -> u64 {
            let entries = batches.iter().flat_map(|batch| &batch.entries);
            entries.filter(|entry| is_credit(entry.code)).map(|entry| entry.amount).sum()
        };
        for limit in [0, credits(&plan.batches[..1]), credits(&plan.batches) / 2] {
            let exceeds = |count: &usize| credits(&plan.batches[..*count]) > limit;
            let line = match (1..=plan.batches.len()).find(exceeds) {
                Some(count) => {
                    let row = &plan.rows()[2 * count - 2..2 * count];
                    format!("OK {count} {} {}\n", row[0], row[1])
                }
                None => format!("OK {} 0 0\n", plan.batches.len()),
            };
            let limit = format!("{}.{:02}", limit / 100, limit % 100);
            ach!("funds", file, limit, "--line", "--lined").is(0, &line, "");
        }
    }
}
