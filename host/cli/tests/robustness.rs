//! Files and streams that do not behave: nothing is lost, the message is clear, the status right.

mod common;

use common::{as_nobody, command, fed, mode, words, Folder, Run, WHOLE, WHOLE_TABLE};
use std::ffi::OsStr;
use std::fs::{self, File, Permissions};
use std::io::Write;
use std::os::unix::ffi::OsStrExt;
use std::os::unix::fs::{symlink, FileTypeExt, MetadataExt, PermissionsExt};
use std::path::Path;
use std::process::{Command, Stdio};
use std::time::Duration;

const RECORDS_IN_LONGEST: usize = 1_000_000;

#[test]
fn a_folder_is_no_file() {
    let folder = Folder::new();
    ach!("check", folder.path("")).fails_with("this is a folder, not a file");
    ach!("write", folder.path(""), "-o", "-").fails_with("this is a folder, not a file");
    let file = folder.with("good.ach", WHOLE);
    fs::create_dir(folder.path("taken")).unwrap();
    ach!("read", file, "-o", folder.path("taken")).fails_with("there is such a file already");
    ach!("read", file, "-o", folder.path("taken"), "--force").fails_with("only a regular file");
    ach!("read", file, "-o", folder.path("no/table")).fails_with("No such file or directory");
    ach!("read", file, "-o", folder.path("good.ach/table")).fails_with("Not a directory");
    ach!("check", "").fails_with("No such file or directory");
    assert_eq!(folder.names(), ["good.ach", "taken"]);
}

#[test]
fn no_permission() {
    let folder = Folder::new();
    let file = folder.with("secret.ach", WHOLE);
    fs::set_permissions(&file, Permissions::from_mode(0o000)).unwrap();
    if let Some(run) = as_nobody(&words("check FILE", &file)) {
        run.fails_with("secret.ach: Permission denied");
    }
    fs::set_permissions(&file, Permissions::from_mode(0o644)).unwrap();
    fs::set_permissions(folder.path(""), Permissions::from_mode(0o555)).unwrap();
    let table = folder.path("new.table");
    let read = ["read".as_ref(), file.as_os_str(), "-o".as_ref(), table.as_ref()];
    if let Some(run) = as_nobody(&read) {
        run.fails_with("new.table: Permission denied");
    }
    if let Some(run) = as_nobody(&words("alter --in-place -- FILE 1 2.00", &file)) {
        run.fails_with("secret.ach: Permission denied");
    }
    fs::set_permissions(folder.path(""), Permissions::from_mode(0o755)).unwrap();
    assert_eq!(fs::read(&file).unwrap(), WHOLE);
    assert_eq!(folder.names(), ["secret.ach"]);
}

#[test]
fn a_full_device() {
    let folder = Folder::new();
    let file = folder.with("good.ach", WHOLE);
    for arguments in [vec!["check"], vec!["check", "--line"], vec!["show"], vec!["read", "-o", "-"]]
    {
        let full = File::options().write(true).open("/dev/full").unwrap();
        let run = Run::of(command().args(arguments).arg(&file).stdout(full).output().unwrap());
        run.fails_with("standard output: No space left on device");
    }
    for words in ["--help", "--version"] {
        let full = File::options().write(true).open("/dev/full").unwrap();
        let run = Run::of(command().arg(words).stdout(full).output().unwrap());
        run.fails_with("standard output: No space left on device");
    }
}

#[test]
fn words_that_cannot_be_said_do_not_change_the_status() {
    let folder = Folder::new();
    let bad = folder.with("bad.ach", &WHOLE[..94]);
    for (path, status) in [(bad, 1), (folder.path("none"), 2)] {
        let full = File::options().write(true).open("/dev/full").unwrap();
        let run = Run::of(command().arg("check").arg(path).stderr(full).output().unwrap());
        run.is(status, "", "");
    }
}

/// The reader goes away before the first byte of the answer: standard input is still open then.
#[test]
fn a_closed_output() {
    for arguments in [vec!["check", "-"], vec!["show", "-"], vec!["read", "-", "-o", "-"]] {
        let mut child = command()
            .args(&arguments)
            .stdin(Stdio::piped())
            .stdout(Stdio::piped())
            .stderr(Stdio::piped())
            .spawn()
            .unwrap();
        drop(child.stdout.take());
        child.stdin.take().unwrap().write_all(WHOLE).unwrap();
        let run = Run::of(child.wait_with_output().unwrap());
        run.fails_with("standard output: Broken pipe");
    }
}

/// A disk that is full in the middle of a file: the shell's limit on the size of files does it.
#[test]
fn a_result_that_does_not_fit() {
    let folder = Folder::new();
    let table = folder.with("good.table", WHOLE_TABLE);
    let old = folder.with("old.ach", b"OLD");
    let ach = Path::new(env!("CARGO_BIN_EXE_ach"));
    for (target, options) in [(folder.path("new.ach"), ""), (old.clone(), "--force")] {
        let script = "trap '' XFSZ; ulimit -f 1; exec \"$0\" write \"$1\" -o \"$2\" $3";
        let mut shell = Command::new("sh");
        shell.args(["-c", script]).args([ach, &table, &target]).arg(options);
        let run = Run::of(shell.output().unwrap());
        run.fails_with("File too large");
    }
    assert_eq!(fs::read(&old).unwrap(), b"OLD");
    assert_eq!(folder.names(), ["good.table", "old.ach"]);
}

#[test]
fn a_name_that_is_no_text() {
    let folder = Folder::new();
    let name = OsStr::from_bytes(b"f\xFFle.ach");
    let file = folder.with(name, WHOLE);
    let run = ach!("check", file);
    assert_eq!(run.status, 0, "{run:?}");
    assert!(run.out.contains("f\u{FFFD}le.ach: accepted"), "{run:?}");
    let table = folder.path(OsStr::from_bytes(b"t\xFE"));
    assert_eq!(ach!("read", file, "-o", table).status, 0);
    assert_eq!(fs::read(&table).unwrap(), WHOLE_TABLE);
    assert_eq!(ach!("alter", file, "1", "2.00", "--in-place").status, 0);
    ach!("check", "--line", file).is(0, "OK 1 2 1 0 2750\n", "");
    ach!(OsStr::from_bytes(b"ch\xFFck"), file).fails_with("there is no command");
    ach!("alter", file, OsStr::from_bytes(b"\xFF"), "1.00", "-o", table).fails_with("digits");
    assert_eq!(folder.names().len(), 2);
}

#[test]
fn the_longest_name_there_is() {
    let folder = Folder::new();
    let (file, table) = (folder.with("good.ach", WHOLE), folder.path("t".repeat(255)));
    assert_eq!(ach!("read", file, "-o", table).status, 0);
    assert_eq!(fs::read(&table).unwrap(), WHOLE_TABLE);
    ach!("read", file, "-o", folder.path("t".repeat(256))).fails_with("File name too long");
    assert_eq!(folder.names().len(), 2);
}

#[test]
fn a_name_that_would_move_the_cursor() {
    let folder = Folder::new();
    let file = folder.with("\x1b[2J\n.ach", WHOLE);
    let run = ach!("check", file);
    assert_eq!(run.status, 0, "{run:?}");
    assert!(run.out.contains("/\u{FFFD}[2J\u{FFFD}.ach: accepted"), "{run:?}");
    ach!("check", "\x1b[2J").fails_with("ach: \u{FFFD}[2J: No such file");
    ach!("\x1b[2J").fails_with("there is no command \u{FFFD}[2J");
    ach!("check", "--\x1b").fails_with("there is no option --\u{FFFD}");
}

/// What is not seen, but turns the rest of the line round, is written out.
#[test]
fn a_name_that_is_seen_as_another() {
    let folder = Folder::new();
    let file = folder.with("pay\u{202E}hca.exe", WHOLE);
    let run = ach!("check", file);
    assert_eq!(run.status, 0, "{run:?}");
    assert!(run.out.contains("/pay\\u{202e}hca.exe: accepted"), "{run:?}");
    for mark in ['\u{200F}', '\u{202A}', '\u{2066}', '\u{2069}', '\u{061C}', '\u{200B}', '\u{2028}']
    {
        let words = format!("/none{}: No such file", mark.escape_unicode());
        ach!("check", folder.path(format!("none{mark}"))).fails_with(&words);
    }
    // Letters of every script are seen as they are.
    ach!("check", folder.path("\u{5E9}\u{E9}\u{4ED8}"))
        .fails_with("/\u{5E9}\u{E9}\u{4ED8}: No such");
}

#[test]
fn a_name_like_an_option() {
    let folder = Folder::new();
    folder.with("--line", WHOLE);
    let run = command().current_dir(folder.path("")).args(["check", "--", "--line"]).output();
    let run = Run::of(run.unwrap());
    assert_eq!(run.status, 0, "{run:?}");
    assert!(run.out.starts_with("--line: accepted"), "{run:?}");
    let run = command().current_dir(folder.path("")).args(["read", "./--line", "-o", "t"]).output();
    assert_eq!(Run::of(run.unwrap()).status, 0);
    assert_eq!(fs::read(folder.path("t")).unwrap(), WHOLE_TABLE);
}

/// The system says that such a file is empty, and then gives bytes: the same as a file that grows.
#[test]
fn a_length_that_is_not_true() {
    let name = "/proc/self/stat";
    ach!("check", name).fails_with("/proc/self/stat: the file changed while it was read");
}

#[test]
fn a_named_pipe() {
    let folder = Folder::new();
    let pipe = folder.path("pipe");
    assert!(Command::new("mkfifo").arg(&pipe).status().unwrap().success());
    let child = command().arg("check").arg("--line").arg(&pipe).stdout(Stdio::piped()).spawn();
    File::options().write(true).open(&pipe).unwrap().write_all(WHOLE).unwrap();
    Run::of(child.unwrap().wait_with_output().unwrap()).is(0, "OK 1 2 1 0 12550\n", "");

    ach!("alter", pipe, "1", "2.00", "--in-place").fails_with("only a regular file is replaced");
    assert!(fs::metadata(&pipe).unwrap().file_type().is_fifo());
    assert_eq!(folder.names(), ["pipe"]);
}

#[test]
fn a_file_that_is_too_long_is_not_read() {
    let folder = Folder::new();
    let path = folder.path("huge");
    // A terabyte of nothing: whoever reads it does not come back in time.
    File::create(&path).unwrap().set_len(1 << 40).unwrap();
    ach!("check", path, "--line").is(1, "NO 1 0 0\n", "");
    ach!("read", path, "-o", folder.path("t"), "--line").is(1, "NO 1 0 0\n", "");
    ach!("write", path, "-o", folder.path("t"), "--line").is(1, "NO 24 0 0\n", "");
    ach!("alter", path, "1", "1.00", "--in-place", "--line").is(1, "NO 1 0 0\n", "");
    let words = |most: u64, wide: u64, ends: &str| {
        format!(
            "{}: refused, 1: the length of the file is wrong
  stands more than {most} bytes
  due    a multiple of {wide} bytes, from {wide} to {most}: {ends}
",
            path.display()
        )
    };
    let plain = words(94_000_000, 94, "records back to back, no line ends");
    ach!("show", path).is(1, "", &plain);
    ach!("show", path, "--lined").is(1, "", &words(96_000_000, 96, LINED_DUE));
    for (length, options) in
        [(94_000_001, ["--line"].as_slice()), (96_000_001, &["--line", "--lined"])]
    {
        File::options().write(true).open(&path).unwrap().set_len(length).unwrap();
        let arguments = ["check".as_ref(), path.as_os_str()].into_iter();
        let run = common::ach(arguments.chain(options.iter().map(OsStr::new)));
        run.is(1, "NO 1 0 0\n", "");
    }
    assert_eq!(folder.names(), ["huge"]);
}

const LINED_DUE: &str = "with --lined, CR LF behind every record, the last one too";

#[test]
fn a_stream_that_is_too_long_is_left() {
    let most = RECORDS_IN_LONGEST * 94;
    let bytes = vec![b'9'; most + 94];
    // As many bytes as a file may have are looked at, and one more is too many.
    fed(&["check", "-", "--line"], &bytes[..most]).is(1, "NO 3 1 1\n", "");
    fed(&["check", "-", "--line"], &bytes[..most + 1]).is(1, "NO 1 0 0\n", "");
    fed(&["check", "-", "--line"], &bytes).is(1, "NO 1 0 0\n", "");
    let most = RECORDS_IN_LONGEST * 96;
    let bytes = vec![b'9'; most + 1];
    fed(&["check", "-", "--line", "--lined"], &bytes[..most]).is(1, "NO 3 1 1\n", "");
    fed(&["check", "-", "--line", "--lined"], &bytes).is(1, "NO 1 0 0\n", "");
    for way in [None, Some("--lined")] {
        let endless = File::open("/dev/zero").unwrap();
        let mut command = command();
        command.args(["check", "-", "--line"]).args(way).stdin(endless);
        Run::of(command.output().unwrap()).is(1, "NO 1 0 0\n", "");
    }
}

#[test]
fn an_output_that_is_there_is_kept() {
    let folder = Folder::new();
    let file = folder.with("good.ach", WHOLE);
    let old = folder.with("old.table", b"OLD");
    fs::set_permissions(&old, Permissions::from_mode(0o640)).unwrap();
    ach!("read", file, "-o", old).fails_with("old.table: there is such a file already; --force");
    assert_eq!(fs::read(&old).unwrap(), b"OLD");
    ach!("alter", file, "1", "2.00", "-o", file).fails_with("there is such a file already");
    assert_eq!(fs::read(&file).unwrap(), WHOLE);

    assert_eq!(ach!("read", file, "-o", old, "--force").status, 0);
    assert_eq!(fs::read(&old).unwrap(), WHOLE_TABLE);
    assert_eq!(mode(&old), 0o640);
    assert_eq!(ach!("read", file, "-o", folder.path("new"), "--force").status, 0);
    assert_eq!(fs::read(folder.path("new")).unwrap(), WHOLE_TABLE);
    assert_eq!(folder.names(), ["good.ach", "new", "old.table"]);
}

/// The command has looked, and waits for its input, when somebody else makes a file of that name.
#[test]
fn an_output_that_appears_meanwhile_is_kept() {
    let folder = Folder::new();
    let output = folder.path("table");
    let mut child = command()
        .args(["read".as_ref(), "-".as_ref(), "-o".as_ref(), output.as_os_str()])
        .stdin(Stdio::piped())
        .stdout(Stdio::piped())
        .stderr(Stdio::piped())
        .spawn()
        .unwrap();
    std::thread::sleep(Duration::from_millis(300));
    fs::write(&output, b"OTHER").unwrap();
    child.stdin.take().unwrap().write_all(WHOLE).unwrap();
    let run = Run::of(child.wait_with_output().unwrap());
    run.fails_with("table: there is such a file already");
    assert_eq!(fs::read(&output).unwrap(), b"OTHER");
    assert_eq!(folder.names(), ["table"]);
}

#[test]
fn links_and_pipes_are_not_replaced() {
    let folder = Folder::new();
    let file = folder.with("good.ach", WHOLE);
    let (link, dangling) = (folder.path("link"), folder.path("dangling"));
    symlink("good.ach", &link).unwrap();
    symlink("nothing", &dangling).unwrap();
    ach!("read", file, "-o", dangling).fails_with("there is such a file already");
    // A pipe of our own: were a device of the system replaced, every process would suffer.
    let pipe = folder.path("pipe");
    assert!(Command::new("mkfifo").arg(&pipe).status().unwrap().success());
    ach!("read", file, "-o", pipe).fails_with("there is such a file already");
    ach!("read", file, "-o", pipe, "--force").fails_with("only a regular file is replaced");
    assert!(fs::metadata(&pipe).unwrap().file_type().is_fifo());

    assert_eq!(ach!("alter", link, "1", "2.00", "--in-place").status, 0);
    assert!(fs::symlink_metadata(&link).unwrap().is_symlink());
    ach!("check", "--line", file).is(0, "OK 1 2 1 0 2750\n", "");
    assert_eq!(ach!("alter", file, "1", "3.00", "-o", link, "--force").status, 0);
    assert!(fs::symlink_metadata(&link).unwrap().is_symlink());
    ach!("check", "--line", file).is(0, "OK 1 2 1 0 2850\n", "");
    assert_eq!(folder.names(), ["dangling", "good.ach", "link", "pipe"]);
}

#[test]
fn in_place() {
    let folder = Folder::new();
    let file = folder.with("good.ach", WHOLE);
    fs::set_permissions(&file, Permissions::from_mode(0o604)).unwrap();
    let words = format!("{}: entry 1 from 100.00 to 2000.00 (+1900.00)\n", file.display());
    ach!("alter", file, "1", "2000.00", "--in-place").is(0, &words, "");
    assert_eq!(mode(&file), 0o604);
    ach!("check", "--line", file).is(0, "OK 1 2 1 0 202550\n", "");
    ach!("alter", file, "1", "100", "--in-place", "--line").is(0, "OK 1 2 1 0 12550\n", "");
    assert_eq!(fs::read(&file).unwrap(), WHOLE);

    let before = fs::metadata(&file).unwrap();
    ach!("alter", file, "1", "0.00", "--in-place", "--line").is(1, "NO 14 3 6\n", "");
    ach!("alter", file, "3", "1.00", "--in-place", "--line").is(1, "NO 25 0 0\n", "");
    let after = fs::metadata(&file).unwrap();
    assert_eq!((before.ino(), before.mtime_nsec()), (after.ino(), after.mtime_nsec()));
    assert_eq!(fs::read(&file).unwrap(), WHOLE);
    assert_eq!(folder.names(), ["good.ach"]);
}

#[test]
fn a_refusal_leaves_the_old_output_whole() {
    let folder = Folder::new();
    let bad = folder.with("bad.ach", &WHOLE[..94]);
    let old = folder.with("old", b"OLD");
    for words in ["read FILE", "write FILE", "alter FILE 1 1.00"] {
        let words = words.split(' ').chain(["-o", "OLD", "--force"]).map(OsStr::new);
        let arguments: Vec<&OsStr> = words
            .map(|word| match word.as_bytes() {
                b"FILE" => bad.as_os_str(),
                b"OLD" => old.as_os_str(),
                _ => word,
            })
            .collect();
        assert_eq!(common::ach(&arguments).status, 1, "{arguments:?}");
        assert_eq!(fs::read(&old).unwrap(), b"OLD");
    }
    assert_eq!(folder.names(), ["bad.ach", "old"]);
}

/// Many at once on one output: one wins, the others keep off, and nothing is left lying about.
#[test]
fn a_race_for_one_output() {
    let folder = Folder::new();
    let file = folder.with("good.ach", WHOLE);
    let output = folder.path("table");
    let mut children: Vec<_> = (0..8)
        .map(|_| {
            let mut command = command();
            command.args(["read".as_ref(), file.as_os_str(), "-o".as_ref(), output.as_os_str()]);
            command.stdout(Stdio::null()).stderr(Stdio::null()).spawn().unwrap()
        })
        .collect();
    let mut statuses: Vec<i32> =
        children.iter_mut().map(|child| child.wait().unwrap().code().unwrap()).collect();
    statuses.sort_unstable();
    assert_eq!(statuses, [0, 2, 2, 2, 2, 2, 2, 2]);
    assert_eq!(fs::read(&output).unwrap(), WHOLE_TABLE);
    assert_eq!(folder.names(), ["good.ach", "table"]);
}
