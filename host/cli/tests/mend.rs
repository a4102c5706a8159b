//! The command that mends: what it prints, what it leaves, and that it leaves both results or none.

mod common;

use common::{fed, mode, send, Folder, Run, Slow, WHOLE, WHOLE_LINED};
use samples::Mending;
use std::ffi::OsString;
use std::fs;
use std::os::unix::fs::PermissionsExt;
use std::os::unix::process::ExitStatusExt;
use std::path::Path;

const WRONG_HASH: &[u8] = include_bytes!("../../../samples/refused/hash-as-printed.ach");
const TAXES: &[u8] = include_bytes!("../../../samples/taxes.ach");
const LIST: &str = "00000010000006040064404066006441407600000000000000";

/// What is said of the change in the wrong hash.
const HASH: &str = "  record 6, batch control, field 4 Entry hash: 0064404066, now 0064414076
  note   the entries were believed: see that none is missing, added or altered
";
const HELD: &str = "batches 1, entries 2, addenda 1, debits 0.00, credits 19626.41";
const HELD_BY_WHOLE: &str = "batches 1, entries 2, addenda 1, debits 0.00, credits 125.50";

#[test]
fn every_refused_sample() {
    let files = samples::by_name();
    for (name, due) in samples::mended_index() {
        let folder = Folder::new();
        let (file, new) = (folder.with("a.ach", &files[name]), folder.path("new.ach"));
        let way = if name.ends_with("-lined.ach") { "--lined" } else { "--" };
        let list = folder.path("list");
        let run = ach!("mend", "-o", new, "--changes", list, "--line", way, file);
        match due {
            Mending::Cured { file: cured, changes } => {
                assert_eq!((run.status, run.err.as_str()), (0, ""), "{name}");
                assert!(fs::read(&new).unwrap() == files[cured], "{name}");
                assert_eq!(fs::read_to_string(&list).unwrap(), changes, "{name}");
                ach!("check", "--line", way, new).is(0, &run.out, "");
                let hint = ach!("check", way, file).err;
                assert!(hint.contains("\n  hint   `ach mend` would "), "{name}: {hint}");
            }
            Mending::Refused { line } => {
                run.is(1, &format!("{line}\n"), "");
                assert_eq!(folder.names(), ["a.ach"], "{name}");
                let run = ach!("mend", "-o", new, way, file);
                assert_eq!((run.status, run.out.as_str()), (1, ""), "{name}");
                assert!(run.err.contains("\n  stands "), "{name}: {run:?}");
                assert!(!run.err.contains("`ach mend`"), "{name}: {run:?}");
            }
        }
    }
}

#[test]
fn the_changes_in_words() {
    let folder = Folder::new();
    let (file, new) = (folder.with("a.ach", WRONG_HASH), folder.path("new.ach"));
    let words = format!("{}: 940 bytes written; {HELD}\n{HASH}", new.display());
    ach!("mend", file, "-o", new).is(0, &words, "");
    assert_eq!(fs::read(new).unwrap(), TAXES);

    let fillers = |count: usize| [&WHOLE[..7 * 94], &[b'9'; 94].repeat(count)].concat();
    for (file, words) in [
        (fillers(0), "  fillers: 0, now 3\n"),
        (fillers(9), "  fillers: 9, now 3\n"),
        (fillers(10), "  fillers: more than 9, now 3\n"),
        (fillers(3), "  nothing was wrong\n"),
    ] {
        let due = format!("standard output: 940 bytes written; {HELD_BY_WHOLE}\n{words}");
        let run = fed(&["mend", "-", "-o", "-"], &file);
        run.is(0, std::str::from_utf8(WHOLE).unwrap(), &due);
    }
}

/// Text that would not be seen stands in quotes, with what is no text made visible.
#[test]
fn text_that_cannot_be_seen() {
    let mut file = WHOLE.to_vec();
    file[5 * 94 + 1..5 * 94 + 4].copy_from_slice(b"\x1B[2");
    file[6 * 94 + 93] = b'X';
    let run = fed(&["mend", "-", "--dry-run"], &file);
    let blanks = " ".repeat(39);
    let words = format!(
        "standard input: nothing written; mended, 940 bytes; {HELD_BY_WHOLE}
  record 6, batch control, field 2 Service class code: \"\\x1B[2\", now 220
  record 7, file control, field 8 Reserved: \"{}X\", now \"{blanks}\"
",
        &blanks[1..]
    );
    run.is(0, &words, "");
}

/// Written afresh, a filler has its line end again; no list names it, the command does.
#[test]
fn line_ends_of_fillers() {
    let folder = Folder::new();
    let mut bytes = WHOLE_LINED.to_vec();
    bytes[8 * 96 - 2..8 * 96].copy_from_slice(b"\n\r");
    let (file, list) = (folder.with("a.ach", &bytes), folder.path("list"));
    let run = ach!("mend", "--lined", file, "--in-place", "--changes", list);
    let said = format!("{}: 960 bytes written; {HELD_BY_WHOLE}", file.display());
    run.is(0, &format!("{said}\n  line ends of fillers, now CR LF\n"), "");
    assert_eq!(fs::read(file).unwrap(), WHOLE_LINED);
    assert_eq!(fs::read(list).unwrap(), [b'0'; 21]);
}

#[test]
fn a_dry_run_writes_nothing() {
    let folder = Folder::new();
    let file = folder.with("a.ach", WRONG_HASH);
    let said = format!("{}: nothing written; mended, 940 bytes; {HELD}\n{HASH}", file.display());
    let (new, list) = (folder.path("new.ach"), folder.path("list"));
    ach!("mend", file, "--dry-run").is(0, &said, "");
    ach!("mend", file, "--dry-run", "--in-place").is(0, &said, "");
    ach!("mend", file, "--dry-run", "-o", new, "--changes", list).is(0, &said, "");
    ach!("mend", file, "--dry-run", "--line").is(0, "OK 1 2 1 0 1962641\n", "");
    assert_eq!(folder.names(), ["a.ach"]);
    assert_eq!(fs::read(file).unwrap(), WRONG_HASH);
}

#[test]
fn in_place() {
    let folder = Folder::new();
    let (file, list) = (folder.with("a.ach", WRONG_HASH), folder.path("list"));
    fs::set_permissions(&file, fs::Permissions::from_mode(0o640)).unwrap();
    let run = ach!("mend", file, "--in-place", "--changes", list);
    run.is(0, &format!("{}: 940 bytes written; {HELD}\n{HASH}", file.display()), "");
    assert_eq!(fs::read(&file).unwrap(), TAXES);
    assert_eq!(fs::read_to_string(&list).unwrap(), LIST);
    assert_eq!((mode(&file), mode(&list)), (0o640, 0o600));
    assert_eq!(folder.names(), ["a.ach", "list"]);
    let again = ach!("mend", file, "--in-place");
    again.is(
        0,
        &format!("{}: 940 bytes written; {HELD}\n  nothing was wrong\n", file.display()),
        "",
    );
}

/// Where one of the two results cannot be put, the other is not put either.
#[test]
fn both_results_or_none() {
    let folder = Folder::new();
    let (file, old) = (folder.with("a.ach", WRONG_HASH), folder.with("old", b"old"));
    let (new, list) = (folder.path("new.ach"), folder.path("list"));
    let nowhere = folder.path("nowhere/list");
    let kept = |run: Run, words: &str| {
        run.fails_with(words);
        assert_eq!(folder.names(), ["a.ach", "old"]);
        assert_eq!(
            (fs::read(&file).unwrap(), fs::read(&old).unwrap()),
            (WRONG_HASH.into(), "old".into())
        );
    };
    kept(ach!("mend", file, "-o", new, "--changes", old), "such a file already, and it stays");
    kept(ach!("mend", file, "--in-place", "--changes", old), "such a file already, and it stays");
    kept(ach!("mend", file, "-o", new, "--changes", old, "--force"), "such a file already");
    kept(ach!("mend", file, "-o", new, "--changes", nowhere), "No such file or directory");
    kept(ach!("mend", file, "--in-place", "--changes", nowhere), "No such file or directory");
    kept(ach!("mend", file, "-o", old, "--changes", list), "--force replaces it");
    kept(ach!("mend", file, "-o", nowhere, "--changes", list), "No such file or directory");
    kept(ach!("mend", file, "-o", new, "--changes", new), "a name of its own");
    // The same place by another name: the list has it first, and gives it back.
    let same = folder.path("./new.ach");
    kept(ach!("mend", file, "-o", same, "--changes", folder.path(".//new.ach"), "--force"), "");
    let twin = folder.path("../").join(folder.path("").file_name().unwrap()).join("new.ach");
    kept(ach!("mend", file, "-o", new, "--changes", twin), "such a file already");
    kept(ach!("mend", file, "-o", new, "--changes", twin, "--force"), "appeared there meanwhile");
}

fn in_place_with_list(file: &Path, list: &Path) -> [OsString; 5] {
    ["mend".into(), file.into(), "--in-place".into(), "--changes".into(), list.into()]
}

/// The list has its name when it is seen that somebody has written to the file: it gives it back.
#[test]
fn a_file_that_changes_meanwhile() {
    let (folder, slow) = (Folder::new(), Slow::new("fsync"));
    let (file, list) = (folder.with("a.ach", WRONG_HASH), folder.path("list"));
    let output = slow.during(&in_place_with_list(&file, &list), |_| {
        fs::write(&file, WHOLE).unwrap();
    });
    Run::of(output).fails_with("a.ach: the file changed since it was read");
    assert_eq!(fs::read(&file).unwrap(), WHOLE);
    assert_eq!(folder.names(), ["a.ach"]);
}

/// A signal ends the run before either result is in its place, or when both are.
#[test]
fn a_signal_meanwhile() {
    for calls in ["fsync", "fsync no-unnamed", "rename", "rename no-unnamed"] {
        let (folder, slow) = (Folder::new(), Slow::new(calls));
        let (file, list) = (folder.with("a.ach", WRONG_HASH), folder.path("list"));
        let output = slow.during(&in_place_with_list(&file, &list), |child| send("TERM", child));
        let both = calls.starts_with("rename");
        let (names, bytes) =
            if both { (&["a.ach", "list"][..], TAXES) } else { (&["a.ach"][..], WRONG_HASH) };
        assert_eq!(output.status.signal(), (!both).then_some(15), "{calls}");
        assert_eq!(folder.names(), names, "{calls}");
        assert_eq!(fs::read(&file).unwrap(), bytes, "{calls}");
    }
}

#[test]
fn standard_output_with_a_list() {
    let folder = Folder::new();
    let (file, list) = (folder.with("a.ach", WRONG_HASH), folder.path("list"));
    let run = ach!("mend", file, "-o", "-", "--changes", list);
    let words = format!("standard output: 940 bytes written; {HELD}\n{HASH}");
    run.is(0, std::str::from_utf8(TAXES).unwrap(), &words);
    assert_eq!(fs::read_to_string(list).unwrap(), LIST);
}

/// Missing, empty, half and no files at all: refused or a failure, and nothing is left behind.
#[test]
fn bad_inputs() {
    let folder = Folder::new();
    let (new, list) = (folder.path("new.ach"), folder.path("list"));
    let missing = folder.path("missing.ach");
    ach!("mend", missing, "-o", new).fails_with("No such file or directory");
    ach!("mend", missing, "--in-place").fails_with("No such file or directory");
    ach!("mend", folder.path(""), "-o", new).fails_with("this is a folder");
    let half = &WHOLE[..WHOLE.len() / 2];
    for (bytes, line) in [
        (&b""[..], "NO 1 0 0\n"),
        (half, "NO 2 6 0\n"),
        (&half[1..], "NO 1 0 0\n"),
        (&WHOLE[94..], "NO 3 1 1\n"),
        (WHOLE_LINED, "NO 1 0 0\n"),
        (&[b'8'; 94], "NO 3 1 1\n"),
        (&[b'9'; 940], "NO 3 1 1\n"),
        (&[0; 94_000], "NO 3 1 1\n"),
    ] {
        let file = folder.with("bad.ach", bytes);
        for target in [vec!["--in-place".into()], vec!["-o".into(), new.clone().into_os_string()]] {
            let words = [["mend", "--line", "--changes"].map(Into::into).to_vec(), target].concat();
            let files = [list.clone().into_os_string(), file.clone().into_os_string()];
            common::ach(words[..3].iter().chain(&files).chain(&words[3..])).is(1, line, "");
            assert_eq!(folder.names(), ["bad.ach"]);
            assert_eq!(fs::read(&file).unwrap(), bytes);
        }
    }
}

/// Behind the file control nothing but nines is mended away, also inside its block.
#[test]
fn something_else_for_a_filler() {
    let folder = Folder::new();
    let mut bytes = WHOLE.to_vec();
    bytes[8 * 94 + 5] = b' ';
    let file = folder.with("a.ach", &bytes);
    let words = format!(
        "{}: refused, 4: a record stands behind the filled block
  where  record 9, behind the file control
  stands \"99999 {}\"
  due    a filler of 94 nines, or nothing: other records there are not mended away
",
        file.display(),
        "9".repeat(88)
    );
    ach!("mend", file, "--in-place").is(1, "", &words);
    assert_eq!(fs::read(&file).unwrap(), bytes);
}

/// A total that no control can hold is not mended, and the words say so.
#[test]
fn a_sum_beyond_the_limit() {
    let full = generate::near_limit(22, 1_000_000_000_000, 1).file();
    let run = fed(&["mend", "-", "--dry-run"], &full);
    assert_eq!((run.status, run.out.as_str()), (1, ""));
    let due = "  due    at most 9999999999.99, and the amounts come to more: split the payments\n";
    assert!(run.err.ends_with(due), "{run:?}");
}
