//! What the tests of the command line share: a folder of their own, and the command as a process.
#![allow(dead_code)]

use std::ffi::{OsStr, OsString};
use std::fs;
use std::io::Write;
use std::os::unix::fs::{MetadataExt, PermissionsExt};
use std::os::unix::process::CommandExt;
use std::path::{Path, PathBuf};
use std::process::{Child, Command, Output, Stdio};
use std::sync::atomic::{AtomicU32, Ordering};
use std::time::{Duration, Instant};

pub const WHOLE: &[u8] = include_bytes!("../../../../samples/whole.ach");
pub const WHOLE_LINED: &[u8] = include_bytes!("../../../../samples/whole-lined.ach");
pub const WHOLE_TABLE: &[u8] = include_bytes!("../../../../samples/whole.table");
pub const GAPS: &[u8] = include_bytes!("../../../../samples/gaps.ach");
pub const GAPS_LINED: &[u8] = include_bytes!("../../../../samples/gaps-lined.ach");

const SAMPLES: &str = concat!(env!("CARGO_MANIFEST_DIR"), "/../../samples");

/// The path of a sample; that of their folder has no name.
pub fn sample(name: &str) -> PathBuf {
    Path::new(SAMPLES).join(name)
}

/// The sample, plain or lined, with a cent too much in the total of its batch.
pub fn wrong_total(sample: &[u8]) -> Vec<u8> {
    let mut file = sample.to_vec();
    let record = file.len() / 10;
    file[5 * record + 43] = b'1';
    file
}

/// The words for that file.
pub fn refusal_of_total(name: &Path) -> String {
    format!(
        "{}: refused, 21: the total is not the sum of the amounts
  where  record 6, type 8 batch control, field 6 Total credit amount, columns 33-44
  stands \"000000012551\"
  due    \"000000012550\", the sum of the batch's credits
{MEND_HINT}",
        name.display()
    )
}

/// The hint for a file that mending cures.
pub const MEND_HINT: &str =
    "  hint   `ach mend` would bring controls and fillers in line with the other records\n";

/// The permissions of a file.
pub fn mode(path: &Path) -> u32 {
    fs::metadata(path).unwrap().permissions().mode() & 0o7777
}

const NOBODY: u32 = 65_534;

/// A folder that is removed with all that is in it.
pub struct Folder(PathBuf);

impl Folder {
    pub fn new() -> Self {
        static NEXT: AtomicU32 = AtomicU32::new(0);
        let number = NEXT.fetch_add(1, Ordering::Relaxed);
        let name = format!("ach-cli-{}-{number}", std::process::id());
        let path = std::env::temp_dir().join(name);
        fs::create_dir(&path).unwrap();
        Folder(path)
    }

    pub fn path(&self, name: impl AsRef<Path>) -> PathBuf {
        self.0.join(name)
    }

    /// A file with this content; its path.
    pub fn with(&self, name: impl AsRef<Path>, bytes: &[u8]) -> PathBuf {
        let path = self.path(name);
        fs::write(&path, bytes).unwrap();
        path
    }

    /// The names of all that is in the folder, temporary files as well.
    pub fn names(&self) -> Vec<String> {
        let entries = fs::read_dir(&self.0).unwrap();
        let names = entries.map(|entry| entry.unwrap().file_name().to_string_lossy().into_owned());
        let mut names: Vec<String> = names.collect();
        names.sort();
        names
    }
}

impl Drop for Folder {
    fn drop(&mut self) {
        let _ = fs::remove_dir_all(&self.0);
    }
}

/// How a run ended: status, standard output, standard error.
#[derive(Debug)]
pub struct Run {
    pub status: i32,
    pub out: String,
    pub err: String,
}

impl Run {
    pub fn of(output: Output) -> Self {
        Run {
            status: output.status.code().expect("no signal ends the command"),
            out: String::from_utf8(output.stdout).unwrap(),
            err: String::from_utf8(output.stderr).unwrap(),
        }
    }

    /// The status and both outputs are just these.
    #[track_caller]
    pub fn is(&self, status: i32, out: &str, err: &str) {
        assert_eq!((self.status, self.out.as_str(), self.err.as_str()), (status, out, err));
    }

    /// The status is 1, nothing is on standard output, and standard error has this number for what
    /// has this name, and these words.
    #[track_caller]
    pub fn refused_with(&self, number: &str, name: &str, words: &str) {
        assert_eq!((self.status, self.out.as_str()), (1, ""), "{self:?}");
        assert!(self.err.contains(&format!("{name}: refused, {number}: ")), "{self:?}");
        assert!(self.err.contains(words), "{self:?}");
    }

    /// The status is 2, nothing is on standard output, and standard error says this.
    #[track_caller]
    pub fn fails_with(&self, words: &str) {
        assert_eq!((self.status, self.out.as_str()), (2, ""), "{self:?}");
        assert!(self.err.starts_with("ach: ") && self.err.contains(words), "{self:?}");
    }
}

pub fn command() -> Command {
    let mut command = Command::new(env!("CARGO_BIN_EXE_ach"));
    command.stdin(Stdio::null());
    command
}

pub fn ach<I: IntoIterator<Item = A>, A: AsRef<OsStr>>(arguments: I) -> Run {
    Run::of(command().args(arguments).output().unwrap())
}

/// The command under calls of the system that are slow or refused: see `slow.c`.
pub struct Slow {
    folder: Folder,
    calls: &'static str,
}

impl Slow {
    pub fn new(calls: &'static str) -> Self {
        let folder = Folder::new();
        let source = concat!(env!("CARGO_MANIFEST_DIR"), "/tests/common/slow.c");
        let mut compiler = Command::new("cc");
        compiler.args(["-shared", "-fPIC", source, "-o"]).arg(folder.path("slow.so"));
        assert!(compiler.status().unwrap().success());
        Slow { folder, calls }
    }

    pub fn command(&self) -> Command {
        let mut command = command();
        command.env("LD_PRELOAD", self.folder.path("slow.so"));
        command.env("SLOW", self.calls).env("MARK", self.folder.path("mark"));
        command.stdout(Stdio::piped()).stderr(Stdio::piped());
        command
    }

    /// Starts the command, and does something when it is in the slow call.
    pub fn during<A: AsRef<OsStr>>(&self, arguments: &[A], act: impl FnOnce(&Child)) -> Output {
        let child = self.command().args(arguments).spawn().unwrap();
        let start = Instant::now();
        while !self.folder.path("mark").exists() {
            assert!(start.elapsed() < Duration::from_secs(60), "the slow call does not come");
            std::thread::sleep(Duration::from_millis(1));
        }
        act(&child);
        fs::remove_file(self.folder.path("mark")).unwrap();
        child.wait_with_output().unwrap()
    }
}

pub fn send(signal: &str, child: &Child) {
    let mut kill = Command::new("sh");
    kill.args(["-c", "kill -s $0 $1", signal, &child.id().to_string()]);
    assert!(kill.status().unwrap().success());
}

/// Arguments of different kinds, as one list.
#[macro_export]
macro_rules! ach {
    ($($argument:expr),* $(,)?) => {
        $crate::common::ach([$(::std::ffi::OsString::from(&$argument)),*])
    };
}

/// The words of a command line, with FILE for this path.
pub fn words(line: &str, file: &Path) -> Vec<OsString> {
    let word = |word| if word == "FILE" { file.into() } else { OsString::from(word) };
    line.split(' ').map(word).collect()
}

/// Who may read everything runs the command as somebody who may not.
pub fn as_nobody<A: AsRef<OsStr>>(arguments: &[A]) -> Option<Run> {
    let mut unprivileged = command();
    unprivileged.args(arguments);
    let may_read_everything = fs::metadata("/proc/self").unwrap().uid() == 0;
    if may_read_everything {
        unprivileged.uid(NOBODY).gid(NOBODY);
    }
    match unprivileged.output() {
        Ok(output) => Some(Run::of(output)),
        Err(error) => {
            eprintln!("skipped: the command cannot be run as nobody: {error}");
            None
        }
    }
}

/// The command with these bytes on standard input.
pub fn fed(arguments: &[&str], bytes: &[u8]) -> Run {
    let mut child = command()
        .args(arguments)
        .stdin(Stdio::piped())
        .stdout(Stdio::piped())
        .stderr(Stdio::piped())
        .spawn()
        .unwrap();
    let mut input = child.stdin.take().unwrap();
    // A command that has seen enough closes its input.
    let _ = input.write_all(bytes);
    drop(input);
    Run::of(child.wait_with_output().unwrap())
}

/// A sample has its line, and words where it is refused. The way is `--lined`, or `--` for none.
#[track_caller]
pub fn has_its_line(name: &str, sample: &[u8], way: &str, line: &str) {
    let folder = Folder::new();
    let file = folder.with("sample.ach", sample);
    let status = i32::from(line.starts_with("NO "));
    ach!("check", "--line", way, file).is(status, &format!("{line}\n"), "");
    let run = ach!("check", way, file);
    assert_eq!(run.status, status, "{name}");
    if status == 1 {
        let number = line.split(' ').nth(1).unwrap();
        assert!(run.err.contains(&format!("refused, {number}: ")), "{name}: {run:?}");
        assert!(run.err.contains("\n  stands "), "{name}: {run:?}");
        assert!(run.err.contains("\n  due    "), "{name}: {run:?}");
    }
}

/// What is read from a file is written again; the way as for `has_its_line`.
#[track_caller]
pub fn is_written_again(file: &[u8], way: &str) {
    let folder = Folder::new();
    let original = folder.with("a.ach", file);
    let (table, again) = (folder.path("a.table"), folder.path("again.ach"));
    assert_eq!(ach!("read", "-o", table, way, original).status, 0);
    assert_eq!(ach!("write", "-o", again, way, table).status, 0);
    assert_eq!(fs::read(again).unwrap(), file);
}
