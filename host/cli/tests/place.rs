//! Results in their place: nothing lost, nothing left lying about, nobody else let in, and a status
//! that says what was done.

mod common;

use common::{as_nobody, command, mode, send, words, Folder, Run, Slow, GAPS, WHOLE, WHOLE_TABLE};
use generate::{big_file, BigFile};
use std::ffi::OsString;
use std::fs::{self, File, Permissions};
use std::os::unix::fs::{symlink, MetadataExt, PermissionsExt};
use std::os::unix::process::ExitStatusExt;
use std::path::Path;
use std::process::{Child, Command, Stdio};
use std::time::{Duration, Instant};

fn started(line: &str, file: &Path) -> Child {
    let mut command = command();
    command.args(words(line, file)).stdout(Stdio::null()).stderr(Stdio::null());
    command.spawn().unwrap()
}

fn status(mut child: Child) -> i32 {
    child.wait().unwrap().code().unwrap()
}

/// Columns 30-39 of a record, which are an entry's amount.
fn amount(file: &[u8], record: usize) -> u64 {
    let columns = &file[(record - 1) * 94 + 29..][..10];
    std::str::from_utf8(columns).unwrap().parse().unwrap()
}

/// In each round two entries are altered at once, the second one under another name of the file.
#[test]
fn no_alteration_is_lost() {
    let folder = Folder::new();
    let file = folder.with("pay.ach", WHOLE);
    let other = folder.path("other.ach");
    symlink("pay.ach", &other).unwrap();
    let mut granted = 0;
    for round in 1..=2_000 {
        let before = fs::read(&file).unwrap();
        let spelled = format!("{round}.00");
        let first = started(&format!("alter FILE 1 {spelled} --in-place"), &file);
        let name = if round % 2 == 0 { &file } else { &other };
        let second = started(&format!("alter FILE 2 {spelled} --in-place"), name);
        let statuses = [status(first), status(second)];
        let after = fs::read(&file).unwrap();
        for (status, record) in statuses.into_iter().zip([3, 4]) {
            let expected = match status {
                0 => round * 100,
                2 => amount(&before, record),
                _ => panic!("round {round}: status {status}"),
            };
            assert_eq!(amount(&after, record), expected, "round {round}, record {record}");
            granted += u64::from(status == 0);
        }
    }
    assert!(granted >= 2_000, "in every round one at least is granted: {granted}");
    assert_eq!(ach!("check", file).status, 0);
    assert_eq!(folder.names(), ["other.ach", "pay.ach"]);
}

#[test]
fn no_removal_is_lost() {
    let folder = Folder::new();
    for round in 0..200 {
        let file = folder.with("pay.ach", GAPS);
        let lines = ["remove FILE 1 --in-place", "remove FILE 2 -o FILE --force"];
        let statuses = lines.map(|line| started(line, &file)).map(status);
        assert!(statuses.iter().all(|status| [0, 2].contains(status)), "{statuses:?}");
        let granted = statuses.iter().filter(|status| **status == 0).count();
        let left = String::from(ach!("check", "--line", file).out.split(' ').nth(2).unwrap());
        assert_eq!(left, (6 - granted).to_string(), "round {round}");
    }
    assert_eq!(folder.names(), ["pay.ach"]);
}

/// Who waits for the lock begins with the file that it finds then.
#[test]
fn a_lock_is_waited_for() {
    let folder = Folder::new();
    let file = folder.with("pay.ach", WHOLE);
    let lock = File::open(&file).unwrap();
    lock.lock().unwrap();
    let children = ["alter FILE 1 1.00 --in-place", "write FILE -o FILE --force"]
        .map(|line| started(line, &file));
    std::thread::sleep(Duration::from_millis(200));
    assert_eq!(fs::read(&file).unwrap(), WHOLE);
    fs::rename(folder.with("new", GAPS), &file).unwrap();
    drop(lock);
    assert_eq!(children.map(status), [0, 1]);
    ach!("check", "--line", file).is(0, "OK 2 6 0 0 758685\n", "");
}

/// What others do who ask for no lock, while the result is being written: theirs stays.
#[test]
fn a_file_that_changes_meanwhile() {
    let (folder, slow) = (Folder::new(), Slow::new("fsync"));
    let file = folder.path("pay.ach");
    let other = || folder.with("other", GAPS);
    let write = || fs::write(&file, WHOLE).unwrap();
    let rename = || fs::rename(other(), &file).unwrap();
    let remove = || fs::remove_file(&file).unwrap();
    for line in ["alter FILE 1 1.00 --in-place", "alter FILE 1 1.00 -o FILE --force"] {
        for (number, meddle) in [&write as &dyn Fn(), &rename, &remove].into_iter().enumerate() {
            write();
            let mut after = None;
            let output = slow.during(&words(line, &file), |_| {
                // Clocks of files are coarse.
                std::thread::sleep(Duration::from_millis(20));
                meddle();
                after = Some(fs::read(&file).ok());
            });
            Run::of(output).fails_with("pay.ach: the file changed since it was read");
            assert_eq!(after, Some(fs::read(&file).ok()), "{line}, {number}");
        }
    }
    let line = "write FILE -o NEW --force".replace("NEW", file.to_str().unwrap());
    let table = folder.with("table", WHOLE_TABLE);
    let output = slow.during(&words(&line, &table), |_| rename());
    Run::of(output).fails_with("pay.ach: a file has appeared there meanwhile");
    assert_eq!(fs::read(&file).unwrap(), GAPS);
    assert_eq!(folder.names(), ["pay.ach", "table"]);
}

#[test]
fn a_system_without_locks() {
    let (folder, slow) = (Folder::new(), Slow::new("no-locks"));
    let file = folder.with("pay.ach", WHOLE);
    for line in ["alter FILE 1 1.00 --in-place", "alter FILE 1 1.00 -o FILE --force"] {
        let run = Run::of(slow.command().args(words(line, &file)).output().unwrap());
        run.fails_with("pay.ach: the file cannot be locked here, and is not replaced without");
    }
    assert_eq!(fs::read(&file).unwrap(), WHOLE);
    let new = folder.path("new.ach");
    let mut alter = slow.command();
    alter.arg("alter").arg(&file).args(["1", "1.00", "-o"]).arg(&new);
    assert_eq!(Run::of(alter.output().unwrap()).status, 0);
    assert_eq!(folder.names(), ["new.ach", "pay.ach"]);
}

/// What was done decides: a file that is changed is status 0, whether or not the words are heard.
#[test]
fn words_that_are_lost_do_not_undo_the_work() {
    let folder = Folder::new();
    let (file, new) = (folder.path("pay.ach"), folder.path("new"));
    let table = folder.with("table", WHOLE_TABLE);
    for (line, input) in [
        ("alter FILE 2 1.00 --in-place", &file),
        ("alter FILE 2 1.00 --in-place --line", &file),
        ("remove FILE 2 --in-place", &file),
        ("remove FILE 2 --in-place --line", &file),
        ("read FILE -o NEW", &file),
        ("read FILE -o NEW --line --force", &file),
        ("write FILE -o NEW", &table),
        ("export FILE -o NEW", &table),
    ] {
        for stream in [">/dev/full", ">&-"] {
            fs::write(&file, WHOLE).unwrap();
            let _ = fs::remove_file(&new);
            let script = format!("NEW={}; \"$0\" {line} {stream}", new.display());
            let script = script.replace("FILE", "\"$1\"").replace(" NEW", " \"$NEW\"");
            let run = in_shell(&script, input);
            assert_eq!((run.status, run.out.as_str()), (0, ""), "{line} {stream}: {run:?}");
            let warning = "is written all the same; standard output: ";
            assert!(run.err.starts_with("ach: ") && run.err.contains(warning), "{run:?}");
            let in_place = line.contains("--in-place");
            assert_eq!(fs::read(&file).unwrap() != WHOLE, in_place, "{line} {stream}");
            assert_eq!(new.exists(), !in_place, "{line} {stream}");
        }
    }
}

/// `$0` is the command and `$1` this path.
fn in_shell(script: &str, path: &Path) -> Run {
    let mut shell = Command::new("sh");
    shell.arg("-c").arg(script).arg(env!("CARGO_BIN_EXE_ach")).arg(path);
    Run::of(shell.output().unwrap())
}

/// A result or an answer that goes to standard output is lost with it.
#[test]
fn a_standard_output_that_is_closed() {
    let folder = Folder::new();
    let file = folder.with("pay.ach", WHOLE);
    for line in ["alter \"$1\" 1 1.00 -o -", "read \"$1\" -o -", "check \"$1\"", "show \"$1\""] {
        let run = in_shell(&format!("\"$0\" {line} >&-"), &file);
        run.fails_with("standard output: it is closed");
        // The null device is open, and asked for.
        assert_eq!(in_shell(&format!("\"$0\" {line} 1<>/dev/null"), &file).status, 0, "{line}");
    }
}

/// Neither a file of somebody else nor one that is kept from being written to is replaced.
#[test]
fn a_file_that_may_not_be_written_to() {
    let folder = Folder::new();
    let file = folder.with("pay.ach", WHOLE);
    fs::set_permissions(folder.path(""), Permissions::from_mode(0o777)).unwrap();
    for (rights, lines) in [
        (0o444, ["alter FILE 1 1.00 --in-place", "alter FILE 1 1.00 -o FILE --force"]),
        (0o644, ["remove FILE 1 --in-place", "read FILE -o FILE --force"]),
    ] {
        fs::set_permissions(&file, Permissions::from_mode(rights)).unwrap();
        let before = fs::metadata(&file).unwrap();
        for line in lines {
            let arguments = words(line, &file);
            let read_only = (rights == 0o444).then(|| common::ach(&arguments));
            let is_own = fs::metadata("/proc/self").unwrap().uid() != 0;
            let may_write = is_own && rights == 0o644;
            let others = if may_write { None } else { as_nobody(&arguments) };
            for run in [read_only, others].into_iter().flatten() {
                run.fails_with("pay.ach: Permission denied: a file is replaced only by who may");
            }
        }
        let after = fs::metadata(&file).unwrap();
        let of = |file: &fs::Metadata| (file.ino(), file.uid(), file.gid(), file.mode());
        assert_eq!(of(&before), of(&after));
    }
    assert_eq!(fs::read(&file).unwrap(), WHOLE);
    assert_eq!(folder.names(), ["pay.ach"]);
}

/// Who may write to the file but not give it away is told so, and its group gets no rights.
#[test]
fn an_owner_that_cannot_be_kept() {
    let folder = Folder::new();
    let file = folder.with("pay.ach", WHOLE);
    fs::set_permissions(&file, Permissions::from_mode(0o666)).unwrap();
    fs::set_permissions(folder.path(""), Permissions::from_mode(0o777)).unwrap();
    let arguments = words("alter FILE 1 2.00 --in-place", &file);
    let Some(run) = as_nobody(&arguments) else {
        return;
    };
    assert_eq!(run.status, 0, "{run:?}");
    let is_own = fs::metadata("/proc/self").unwrap().uid() != 0;
    assert_eq!(mode(&file), if is_own { 0o666 } else { 0o606 });
    let warning = "pay.ach: the old file's owner and group could not be kept\n";
    assert_eq!(run.err.ends_with(warning), !is_own, "{run:?}");
}

#[test]
fn other_names_of_a_file_are_told_of() {
    let folder = Folder::new();
    let file = folder.with("pay.ach", WHOLE);
    fs::hard_link(&file, folder.path("other.ach")).unwrap();
    let run = ach!("alter", file, "1", "1.00", "--in-place");
    assert_eq!(run.status, 0);
    assert!(run.err.contains("pay.ach: the file's other names still have the old"), "{run:?}");
    assert_eq!(fs::read(folder.path("other.ach")).unwrap(), WHOLE);
}

/// A run that a signal ends has changed nothing and left nothing, with files without names and
/// where the system has none.
#[test]
fn a_signal_before_the_end() {
    for calls in ["fsync", "fsync no-unnamed"] {
        let (folder, slow) = (Folder::new(), Slow::new(calls));
        let file = folder.with("pay.ach", WHOLE);
        let new = format!("alter FILE 1 1.00 -o {}", folder.path("new").display());
        for line in ["alter FILE 1 1.00 --in-place", "alter FILE 1 1.00 -o FILE --force", &new] {
            for (signal, number) in [("INT", 2), ("TERM", 15), ("HUP", 1)] {
                let output = slow.during(&words(line, &file), |child| send(signal, child));
                assert_eq!(output.status.signal(), Some(number), "{calls}, {line}: {output:?}");
                assert_eq!(output.stdout, b"", "{calls}, {line}");
                assert_eq!(fs::read(&file).unwrap(), WHOLE, "{calls}, {line}");
                assert_eq!(folder.names(), ["pay.ach"], "{calls}, {line}, {signal}");
            }
        }
    }
}

/// A signal that comes when the old file is being replaced is too late: the run ends as it would.
#[test]
fn a_signal_that_comes_too_late() {
    for calls in ["rename", "rename no-unnamed"] {
        let (folder, slow) = (Folder::new(), Slow::new(calls));
        let file = folder.with("pay.ach", WHOLE);
        for (signal, amount) in [("INT", "1.00"), ("TERM", "2.00"), ("HUP", "3.00")] {
            let line = format!("alter FILE 1 {amount} --in-place");
            let run = Run::of(slow.during(&words(&line, &file), |child| send(signal, child)));
            assert_eq!((run.status, run.err.as_str()), (0, ""), "{calls}, {signal}: {run:?}");
            assert!(run.out.contains(&format!("to {amount} (")), "{run:?}");
            assert!(ach!("show", file).out.contains(&format!(" {amount}  MARLOWE")));
        }
        assert_eq!(folder.names(), ["pay.ach"]);
    }
}

/// Between its two last calls a result has a name beside its place. A run that is killed there
/// leaves it, and the next one says so, but not of a file that somebody still works on.
#[test]
fn what_a_killed_run_leaves_is_told_of() {
    let folder = Folder::new();
    let file = folder.with("pay.ach", WHOLE);
    // Before that it has no name.
    let kill = |child: &Child| send("KILL", child);
    Slow::new("fsync").during(&words("alter FILE 1 1.00 --in-place", &file), kill);
    assert_eq!(folder.names(), ["pay.ach"]);
    let slow = Slow::new("rename");
    slow.during(&words("alter FILE 1 1.00 --in-place", &file), kill);
    assert_eq!(fs::read(&file).unwrap(), WHOLE);
    let names = folder.names();
    assert!(names.len() == 2 && names[0].starts_with(".ach-"), "{names:?}");
    let left = folder.path(&names[0]);
    assert_eq!(mode(&left), mode(&file));

    let told = format!("ach: {}: left by a run that was killed", left.display());
    let run = ach!("alter", file, "1", "2.00", "--in-place");
    assert!(run.status == 0 && run.err.starts_with(&told), "{run:?}");
    let run = ach!("read", file, "-o", folder.path("table"));
    assert!(run.status == 0 && run.err.starts_with(&told), "{run:?}");
    folder.with(".ach-1-0", b"");
    folder.with(".ach-1-", b"");
    folder.with(".ach-notes", b"");
    let run = ach!("read", file, "-o", folder.path("table"), "--force");
    assert!(run.err.contains("/.ach-1-0 and 1 more such files: left by a run"), "{run:?}");
    fs::remove_file(folder.path(".ach-1-0")).unwrap();
    let lock = File::open(&left).unwrap();
    lock.lock().unwrap();
    let run = ach!("alter", file, "1", "3.00", "--in-place");
    assert_eq!((run.status, run.err.as_str()), (0, ""));
}

/// Killed at any moment, a run leaves the old file or the new one.
#[test]
fn killed_in_the_middle() {
    let folder = Folder::new();
    let big = BigFile { records: 20_000, entries_in_batch: 5_000, addendum_every: 4 };
    let old = big_file(&big);
    let file = folder.with("pay.ach", &old);
    let times = [(); 3].map(|()| {
        fs::write(&file, &old).unwrap();
        let start = Instant::now();
        assert_eq!(ach!("remove", file, "1", "--in-place").status, 0);
        start.elapsed()
    });
    let whole_run = times.into_iter().min().unwrap();
    let new = fs::read(&file).unwrap();
    assert!(new != old);
    let mut random = generate::Random::new(17);
    let mut killed = 0;
    for _ in 0..200 {
        fs::write(&file, &old).unwrap();
        let mut child = started("remove FILE 1 --in-place", &file);
        std::thread::sleep(whole_run * random.below(1_000) as u32 / 800);
        child.kill().unwrap();
        killed += u32::from(child.wait().unwrap().signal().is_some());
        let now = fs::read(&file).unwrap();
        assert!(now == old || now == new, "the file is torn");
        for left in folder.names().into_iter().filter(|name| name != "pay.ach") {
            let left = folder.path(left);
            let run = ach!("remove", file, "1", "--in-place");
            let told = format!("ach: {}: left by a run that was killed", left.display());
            assert!(run.err.starts_with(&told), "{run:?}");
            fs::remove_file(left).unwrap();
        }
    }
    assert!(killed > 20, "the runs were over too soon: {killed}");
}

#[test]
fn new_files_are_for_their_owner_alone() {
    let folder = Folder::new();
    let table = folder.with("table", WHOLE_TABLE);
    let path = |name: &str| folder.path(name);
    for (name, options, expected) in [
        ("plain", vec![], 0o600),
        ("forced", vec!["--force"], 0o600),
        ("group", vec!["--mode", "640"], 0o640),
        ("all", vec!["--mode", "0666", "--force"], 0o666),
    ] {
        let mut arguments = words("write FILE -o", &table);
        arguments.push(path(name).into());
        arguments.extend(options.into_iter().map(OsString::from));
        assert_eq!(common::ach(arguments).status, 0, "{name}");
        assert_eq!(mode(&path(name)), expected, "{name}");
    }
    // The file that is replaced says otherwise, and what is asked for comes before both.
    assert_eq!(ach!("write", table, "-o", path("group"), "--force").status, 0);
    assert_eq!(mode(&path("group")), 0o640);
    assert_eq!(ach!("write", table, "-o", path("group"), "--force", "--mode", "600").status, 0);
    assert_eq!(mode(&path("group")), 0o600);
    ach!("write", table, "-o", path("x"), "--mode", "rw").fails_with("--mode wants permissions");
    ach!("alter", path("all"), "1", "1.00", "--in-place", "--mode", "600")
        .fails_with("--mode here");
}

/// A link stays, and the file that it names is made, or replaced.
#[test]
fn a_link_to_nothing() {
    let folder = Folder::new();
    fs::create_dir(folder.path("in")).unwrap();
    let table = folder.with("table", WHOLE_TABLE);
    let (link, named) = (folder.path("link"), folder.path("in/pay.ach"));
    symlink("in/next", &link).unwrap();
    symlink("pay.ach", folder.path("in/next")).unwrap();
    ach!("write", table, "-o", link).fails_with("there is such a file already");
    for _ in 0..2 {
        assert_eq!(ach!("write", table, "-o", link, "--force").status, 0);
        assert_eq!(fs::read_link(&link).unwrap(), Path::new("in/next"));
        assert!(fs::symlink_metadata(&named).unwrap().is_file());
        assert_eq!(fs::read(&named).unwrap(), WHOLE);
    }
    // What a link of the system stands for may have no name at all.
    let run = ach!("write", table, "-o", "/dev/stdout", "--force");
    run.fails_with("only a regular file is replaced");
    symlink("round", folder.path("round")).unwrap();
    ach!("write", table, "-o", folder.path("round"), "--force").fails_with("too many links");
    assert_eq!(folder.names(), ["in", "link", "round", "table"]);
}

/// Where there are no links, a new name is not taken by force of renaming unless that is asked for.
#[test]
fn a_system_without_links() {
    let (folder, slow) = (Folder::new(), Slow::new("no-links no-unnamed"));
    let table = folder.with("table", WHOLE_TABLE);
    let new = folder.path("pay.ach");
    let write = |options: &[&str]| {
        let mut write = slow.command();
        write.arg("write").arg(&table).arg("-o").arg(&new).args(options);
        Run::of(write.output().unwrap())
    };
    write(&[]).fails_with("where there are no links, --force puts a file there by renaming");
    assert_eq!(folder.names(), ["table"]);
    assert_eq!(write(&["--force"]).status, 0);
    assert_eq!(fs::read(&new).unwrap(), WHOLE);
    assert_eq!(folder.names(), ["pay.ach", "table"]);
}
