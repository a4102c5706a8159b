//! The command line: which command, on what, with which options.

use crate::money;
use crate::recall::Entries;
use crate::trouble::{misused, shown, Trouble};
use ach::Way;
use std::ffi::OsString;
use std::path::{Path, PathBuf};

pub const HELP: &str = "\
ach: checks, reads, writes, alters and mends ACH payment files (PPD and CCD),
takes entries out of them, tells where their credits pass a limit, and makes pay
tables of client lists

  ach check FILE                          is the file in order?
  ach show FILE                           batches, entries, totals
  ach funds FILE LIMIT                    with which batch does LIMIT run out?
  ach read FILE -o TABLE                  the file's pay table
  ach write TABLE -o FILE                 the file of a pay table
  ach alter FILE ENTRY AMOUNT -o FILE     one entry's amount, with the totals
  ach alter FILE ENTRY AMOUNT --in-place
  ach remove FILE ENTRY.. -o FILE         the file without these entries
  ach remove FILE ENTRY.. --in-place
  ach mend FILE -o FILE                   the file with its controls and fillers
  ach mend FILE --in-place                as the other records call for
  ach mend FILE --dry-run                 what would be changed
  ach addendum FILE ENTRY                 the text of an entry's addendum
  ach import LINES --file-row ROW --batch-row ROW -o TABLE
                                          the pay table of a client's list
  ach export TABLE -o LINES               a pay table's entries as a list
  ach explain NUMBER                      what a refusal's number means

FILE, TABLE or LINES may be - for standard input, and -o - is standard output.
ENTRY counts the entries from 1 through the file, as `ach show` does. AMOUNT is
1234.56, or 1234 for whole dollars: digits, with no point or a point and two
digits.

LIMIT is written like AMOUNT. It runs out with the first batch at whose end the
credits so far are more than LIMIT; debits do not count. If that is no batch, the
answer is none. Both are granted.

For remove, ENTRY is a number or a range such as 3-7, in any order, and more may
stand in a file, one a line, behind --list. All are numbers of FILE as it is.
Addenda go with their entries, and a batch that is left empty goes too; traces
and batch numbers stay, counts, totals and fillers are corrected. At least one
entry has to be left.

Mending replaces counts, hashes, totals and all else in the controls, and the
fillers, and prints every change. It believes the entries: where a count or a
total is changed, a payment may be missing, or be another than was meant. What
is wrong elsewhere stays refused, and so is anything but nines behind the file
control.

LINES are comma lines as spreadsheets export them (RFC 4180), without a header
line: code, routing number, account, amount (1234.56), identification, name. ROW
is a file that holds one row of a pay table and nothing else: 85 bytes for the
file's header, 95 for the batch, whose last six, the number of entries, are
filled in. A line break at the end of a row's file is NOT stripped: it counts.

  --lined      the file has, or gets, CR LF behind every record (96 bytes each);
               without it records stand back to back (94 bytes); nothing guesses
  -o PATH      where the result goes; a file that is there is kept
  --force      replace a file that is there, keeping its permissions
  --in-place   replace the file that is read, keeping its permissions
  --mode MODE  the permissions of the file behind -o, such as 640; without it a
               new file is for its owner alone (600)
  --list PATH  entries to be removed, beside those on the command line
  --changes PATH
               where the list of what was mended goes, as include/ach.h has it:
               a new file for its owner alone, put with the mended file or not
  --dry-run    write nothing (mend)
  --line       one line: OK batches entries addenda debit credit (in cents), or
               NO number record field (check, read, write, alter, remove, mend,
               import, export; for an import's 29, 30 and 32 the line is the
               record, and an export's numbers are those of TABLE); for funds
               OK batches record credits: how many batches come up to the one
               found and with it, the record of its control and the credits so
               far, or OK batches 0 0 for none
  --           what follows is no option
  --help, --version

A result is written and synced before it is put into its place at once: after a
refusal, a failure or a crash the old file is whole. A file that is replaced is
locked from before it is read, so that of two runs on it the second begins with
what the first has made, or exits 2; a file that you may not write to, or that
is read-only, is not replaced. A link stays, and the file it names is replaced.

Exit status: 0 granted, and the result is in its place; 1 refused; 2 misuse, or
a file that cannot be read or written. A run that ends with 1 or 2, or by INT,
TERM or HUP, has changed no file. Answers go to standard output, refusals in
words to standard error. If the result is in its place and the words on it cannot
be said, that is a warning on standard error, and the status is 0.
";

/// A file to be read.
#[derive(Debug, PartialEq)]
pub enum Source {
    StandardInput,
    File(PathBuf),
}

impl Source {
    pub fn name(&self) -> String {
        match self {
            Source::StandardInput => "standard input".into(),
            Source::File(path) => shown(path),
        }
    }
}

/// Where a result goes.
#[derive(Debug, PartialEq)]
pub enum Target {
    StandardOutput,
    /// A file of this name, with these permissions if some are asked for. One that is there is
    /// replaced only by force.
    File {
        path: PathBuf,
        force: bool,
        mode: Option<u32>,
    },
    /// The file that is read, replaced if nobody wrote to it meanwhile.
    InPlace(PathBuf),
}

impl Target {
    pub fn name(&self) -> String {
        match self {
            Target::StandardOutput => "standard output".into(),
            Target::File { path, .. } | Target::InPlace(path) => shown(path),
        }
    }
}

#[derive(Debug, PartialEq)]
pub enum Command {
    Help,
    Version,
    Check { way: Way, file: Source, line: bool },
    Show { way: Way, file: Source },
    Funds { way: Way, file: Source, limit: Amount, line: bool },
    Read { way: Way, file: Source, target: Target, line: bool },
    Write { way: Way, table: Source, target: Target, line: bool },
    Alter { way: Way, file: Source, entry: Entry, amount: Amount, target: Target, line: bool },
    Remove { way: Way, file: Source, recall: Recall, target: Target, line: bool },
    Mend { way: Way, file: Source, mending: Mending, line: bool },
    Addendum { way: Way, file: Source, entry: Entry },
    Import { list: Source, rows: Rows, target: Target, line: bool },
    Export { table: Source, target: Target, line: bool },
    Explain { number: u8 },
}

/// The entries that are to be removed, and the file that has more of them.
#[derive(Debug, PartialEq)]
pub struct Recall {
    pub entries: Vec<Entries>,
    pub list: Option<Source>,
}

/// What becomes of a mended file.
#[derive(Debug, PartialEq)]
pub enum Mending {
    DryRun,
    /// The file goes to one place, and the list of its changes to another, if that is wanted.
    Put {
        target: Target,
        changes: Option<PathBuf>,
    },
}

/// The files that hold the rows of an import.
#[derive(Debug, PartialEq)]
pub struct Rows {
    pub file: Source,
    pub batch: Source,
}

/// A number and how it was written.
#[derive(Debug, PartialEq)]
pub struct Written {
    pub number: u64,
    pub text: String,
}

pub type Entry = Written;
/// In cents.
pub type Amount = Written;

/// What was given, before it is known what the command takes of it.
#[derive(Default)]
struct Given {
    words: Vec<OsString>,
    values: Vec<(&'static str, OsString)>,
    flags: Vec<&'static str>,
}

/// The options that something follows, and what that is.
const WITH_VALUE: [(&str, &str); 6] = [
    ("-o", A_FILE),
    ("--file-row", A_FILE),
    ("--batch-row", A_FILE),
    ("--list", A_FILE),
    ("--changes", A_FILE),
    ("--mode", "permissions such as 640"),
];
const A_FILE: &str = "the name of a file";
const FLAGS: [&str; 5] = ["--force", "--in-place", "--dry-run", "--line", "--lined"];

pub fn parse(arguments: impl Iterator<Item = OsString>) -> Result<Command, Trouble> {
    let mut given = Given::default();
    let mut rest = arguments;
    let mut options_end = false;
    while let Some(argument) = rest.next() {
        let spelled = argument.to_str().unwrap_or_default();
        if options_end || !spelled.starts_with('-') || spelled == "-" {
            given.words.push(argument);
            continue;
        }
        match spelled {
            "--" => options_end = true,
            "--help" | "-h" => return Ok(Command::Help),
            "--version" | "-V" => return Ok(Command::Version),
            _ => match WITH_VALUE.into_iter().find(|(option, _)| *option == spelled) {
                Some((option, what)) => given.set_value(option, what, rest.next())?,
                None => given.set_flag(spelled)?,
            },
        }
    }
    given.command()
}

impl Given {
    fn set_value(
        &mut self,
        option: &'static str,
        what: &str,
        value: Option<OsString>,
    ) -> Result<(), Trouble> {
        let Some(value) = value else {
            return misused(format!("{option} wants {what}"));
        };
        if value.is_empty() {
            return misused(format!("{option} wants {what}, and got nothing"));
        }
        if self.has_value(option) {
            return misused(format!("{option} is given twice"));
        }
        self.values.push((option, value));
        Ok(())
    }

    fn has_value(&self, option: &str) -> bool {
        self.values.iter().any(|(given, _)| *given == option)
    }

    /// Takes what follows an option out, so that those left over can be refused.
    fn value(&mut self, option: &str) -> Option<OsString> {
        let index = self.values.iter().position(|(given, _)| *given == option)?;
        Some(self.values.remove(index).1)
    }

    fn set_flag(&mut self, spelled: &str) -> Result<(), Trouble> {
        match FLAGS.iter().find(|flag| **flag == spelled) {
            Some(flag) => self.flags.push(flag),
            None => return misused(format!("there is no option {}", shown(Path::new(spelled)))),
        }
        Ok(())
    }

    /// Takes a flag out, so that those left over can be refused.
    fn flag(&mut self, name: &str) -> bool {
        let before = self.flags.len();
        self.flags.retain(|flag| *flag != name);
        self.flags.len() < before
    }

    fn command(mut self) -> Result<Command, Trouble> {
        if self.words.is_empty() {
            return misused("which command?");
        }
        let name = self.words.remove(0);
        let name = shown(Path::new(&name));
        let command = self.named(&name)?;
        self.nothing_left(&name)?;
        Ok(command)
    }

    fn named(&mut self, name: &str) -> Result<Command, Trouble> {
        Ok(match name {
            "check" => {
                let [file] = self.take("FILE")?;
                Command::Check { way: self.way(), file: source(&file), line: self.flag("--line") }
            }
            "show" => {
                let [file] = self.take("FILE")?;
                Command::Show { way: self.way(), file: source(&file) }
            }
            "funds" => self.funds()?,
            "read" => {
                let (file, target, line) = self.result_of("FILE")?;
                Command::Read { way: self.way(), file, target, line }
            }
            "write" => {
                let (table, target, line) = self.result_of("TABLE")?;
                Command::Write { way: self.way(), table, target, line }
            }
            "alter" => self.alter()?,
            "remove" => self.remove()?,
            "mend" => self.mend()?,
            "addendum" => {
                let [file, entry] = self.take("FILE ENTRY")?;
                let entry = entry_number(&entry)?;
                Command::Addendum { way: self.way(), file: source(&file), entry }
            }
            "import" => self.import()?,
            "export" => {
                let (table, target, line) = self.result_of("TABLE")?;
                Command::Export { table, target, line }
            }
            "explain" => {
                let [number] = self.take("NUMBER")?;
                Command::Explain { number: refusal_number(&number)? }
            }
            _ => return misused(format!("there is no command {name}")),
        })
    }

    fn import(&mut self) -> Result<Command, Trouble> {
        let rows = Rows { file: self.row("--file-row")?, batch: self.row("--batch-row")? };
        let (list, target, line) = self.result_of("LINES")?;
        Ok(Command::Import { list, rows, target, line })
    }

    /// For a command that makes one thing of another: what it reads, where the result goes, and
    /// whether one line is wanted.
    fn result_of(&mut self, name: &str) -> Result<(Source, Target, bool), Trouble> {
        let [word] = self.take(name)?;
        Ok((source(&word), self.target()?, self.flag("--line")))
    }

    fn funds(&mut self) -> Result<Command, Trouble> {
        let [file, limit] = self.take("FILE LIMIT")?;
        let (file, limit) = (source(&file), amount_in_cents(&limit)?);
        Ok(Command::Funds { way: self.way(), file, limit, line: self.flag("--line") })
    }

    fn alter(&mut self) -> Result<Command, Trouble> {
        let [file, entry, amount] = self.take("FILE ENTRY AMOUNT")?;
        let (entry, amount) = (entry_number(&entry)?, amount_in_cents(&amount)?);
        let file = source(&file);
        let target = self.target_for(&file)?;
        let (way, line) = (self.way(), self.flag("--line"));
        Ok(Command::Alter { way, file, entry, amount, target, line })
    }

    fn remove(&mut self) -> Result<Command, Trouble> {
        let mut words = std::mem::take(&mut self.words).into_iter();
        let Some(file) = words.next() else {
            return misused("FILE ENTRY.. is wanted behind the command");
        };
        let entries = words.map(|word| entry_numbers(&word)).collect::<Result<Vec<_>, _>>()?;
        let recall = Recall { entries, list: self.read_path("--list")? };
        if recall.entries.is_empty() && recall.list.is_none() {
            return misused("which entries? remove wants numbers, or --list and a file of them");
        }
        let file = source(&file);
        let target = self.target_for(&file)?;
        let (way, line) = (self.way(), self.flag("--line"));
        Ok(Command::Remove { way, file, recall, target, line })
    }

    fn mend(&mut self) -> Result<Command, Trouble> {
        let [file] = self.take("FILE")?;
        let file = source(&file);
        let mending = match self.flag("--dry-run") {
            true => self.dry_run(&file)?,
            false => self.mending(&file)?,
        };
        Ok(Command::Mend { way: self.way(), file, mending, line: self.flag("--line") })
    }

    fn mending(&mut self, file: &Source) -> Result<Mending, Trouble> {
        let target = self.target_for(file)?;
        let changes = match self.value("--changes") {
            Some(path) if path == "-" => return misused("--changes wants a file and not a stream"),
            path => path.map(PathBuf::from),
        };
        match &target {
            Target::File { path, .. } | Target::InPlace(path) if changes.as_ref() == Some(path) => {
                misused("--changes wants a name of its own")
            }
            _ => Ok(Mending::Put { target, changes }),
        }
    }

    /// Where the result would go need not be said, and if it is, it has to make sense.
    fn dry_run(&mut self, file: &Source) -> Result<Mending, Trouble> {
        if self.has_value("-o") || self.has_value("--changes") || self.flags.contains(&"--in-place")
        {
            self.mending(file)?;
        }
        Ok(Mending::DryRun)
    }

    fn way(&mut self) -> Way {
        if self.flag("--lined") {
            Way::Lined
        } else {
            Way::Plain
        }
    }

    /// The words behind the command, as many as it takes.
    fn take<const N: usize>(&mut self, names: &str) -> Result<[OsString; N], Trouble> {
        let words = std::mem::take(&mut self.words);
        let count = words.len();
        words.try_into().or_else(|_| {
            misused(format!("{names} is wanted behind the command, not {count} words"))
        })
    }

    /// The file of a row, which an import cannot do without.
    fn row(&mut self, option: &str) -> Result<Source, Trouble> {
        match self.read_path(option)? {
            None => misused(format!("import wants {option} and the name of a file with the row")),
            Some(file) => Ok(file),
        }
    }

    /// A file that is read beside the one that the command is about, which may be standard input.
    fn read_path(&mut self, option: &str) -> Result<Option<Source>, Trouble> {
        match self.value(option) {
            Some(path) if path == "-" => misused(format!("{option} wants a file and not a stream")),
            path => Ok(path.map(|path| Source::File(path.into()))),
        }
    }

    /// Where a changed file goes: to a place of its own, or to that of the one that is read.
    fn target_for(&mut self, file: &Source) -> Result<Target, Trouble> {
        match (self.flag("--in-place"), self.has_value("-o"), file) {
            (false, ..) => self.target(),
            (true, true, _) => misused("--in-place and -o exclude each other"),
            (true, false, Source::StandardInput) => {
                misused("standard input cannot be altered in place")
            }
            (true, false, Source::File(path)) => Ok(Target::InPlace(path.clone())),
        }
    }

    fn target(&mut self) -> Result<Target, Trouble> {
        let Some(path) = self.value("-o") else {
            return misused("where to? This command wants -o and the name of a file");
        };
        if path == "-" && self.flags.contains(&"--line") {
            return misused("--line and -o - exclude each other");
        }
        let force = self.flag("--force");
        if path == "-" {
            return Ok(Target::StandardOutput);
        }
        let mode = self.value("--mode").map(|word| permissions(&word)).transpose()?;
        Ok(Target::File { path: path.into(), force, mode })
    }

    fn nothing_left(&self, command: &str) -> Result<(), Trouble> {
        let value = self.values.first().map(|(option, _)| *option);
        match self.flags.first().copied().or(value) {
            Some(option) => misused(format!("{command} does not take {option} here")),
            None => Ok(()),
        }
    }
}

fn source(word: &OsString) -> Source {
    match word.to_str() {
        Some("-") => Source::StandardInput,
        _ => Source::File(Path::new(word).into()),
    }
}

fn entry_number(word: &OsString) -> Result<Entry, Trouble> {
    let text = shown(Path::new(word));
    match money::number(&text) {
        Some(number) => Ok(Written { number, text }),
        None => misused(format!("an entry's number is digits, not {text}")),
    }
}

fn entry_numbers(word: &OsString) -> Result<Entries, Trouble> {
    let text = shown(Path::new(word));
    match Entries::parse(&text) {
        Some(entries) => Ok(entries),
        None => misused(format!("entries are written 7 or, lower number first, 3-7, not {text}")),
    }
}

fn amount_in_cents(word: &OsString) -> Result<Amount, Trouble> {
    let text = shown(Path::new(word));
    match money::cents(&text) {
        Some(number) => Ok(Written { number, text }),
        None => misused(format!("an amount is written 1234.56 or 1234, not {text}")),
    }
}

/// Three digits of octal, or a zero before them.
fn permissions(word: &OsString) -> Result<u32, Trouble> {
    let text = shown(Path::new(word));
    let digits = text.strip_prefix('0').filter(|rest| rest.len() == 3).unwrap_or(&text);
    let octal = digits.len() == 3 && digits.bytes().all(|byte| matches!(byte, b'0'..=b'7'));
    match u32::from_str_radix(digits, 8).ok().filter(|_| octal) {
        Some(mode) => Ok(mode),
        None => misused(format!("--mode wants permissions such as 640, not {text}")),
    }
}

fn refusal_number(word: &OsString) -> Result<u8, Trouble> {
    let text = shown(Path::new(word));
    let number = money::number(&text).and_then(|number| u8::try_from(number).ok());
    match number.filter(|number| ach::reason(*number).is_some()) {
        Some(number) => Ok(number),
        None => misused(format!("no refusal has the number {text}")),
    }
}

#[cfg(test)]
mod tests {
    use super::*;

    fn parsed(words: &str) -> Result<Command, String> {
        match parse(words.split_whitespace().map(OsString::from)) {
            Ok(command) => Ok(command),
            Err(Trouble::Misused(words)) => Err(words),
            Err(_) => panic!("{words}: parsing can only find misuse"),
        }
    }

    fn file(path: &str, force: bool) -> Target {
        Target::File { path: path.into(), force, mode: None }
    }

    #[test]
    fn options_may_stand_anywhere() {
        let expected = || Command::Read {
            way: Way::Lined,
            file: Source::File("a".into()),
            target: file("b", true),
            line: true,
        };
        for words in ["read a -o b --force --lined --line", "--line -o b read --lined --force a"] {
            assert_eq!(parsed(words), Ok(expected()), "{words}");
        }
    }

    #[test]
    fn a_dash_is_a_stream_and_two_dashes_end_the_options() {
        let check = |file| Ok(Command::Check { way: Way::Plain, file, line: false });
        assert_eq!(parsed("check -"), check(Source::StandardInput));
        assert_eq!(parsed("check -- --line"), check(Source::File("--line".into())));
        assert!(parsed("read a -o -").unwrap().has_target(&Target::StandardOutput));
        assert!(parsed("read a -o b").unwrap().has_target(&file("b", false)));
    }

    impl Command {
        fn has_target(&self, expected: &Target) -> bool {
            matches!(self, Command::Read { target, .. } if target == expected)
        }
    }

    #[test]
    fn every_command_on_a_file_takes_its_way() {
        for words in [
            "check a",
            "show a",
            "funds a 1.00",
            "read a -o b",
            "write a -o b",
            "alter a 1 1.00 -o b",
            "alter a 1 1.00 --in-place",
            "remove a 1 2-3 -o b",
            "remove a --list l --in-place",
            "mend a -o b",
            "mend a --in-place --changes c",
            "mend a --dry-run",
            "addendum a 1",
        ] {
            assert_eq!(parsed(words).unwrap().way(), Some(Way::Plain), "{words}");
            let lined = parsed(&format!("{words} --lined")).unwrap();
            assert_eq!(lined.way(), Some(Way::Lined), "{words}");
        }
        assert_eq!(parsed("explain 12").unwrap().way(), None);
    }

    impl Command {
        fn way(&self) -> Option<Way> {
            match self {
                Command::Check { way, .. }
                | Command::Show { way, .. }
                | Command::Funds { way, .. }
                | Command::Read { way, .. }
                | Command::Write { way, .. }
                | Command::Alter { way, .. }
                | Command::Remove { way, .. }
                | Command::Mend { way, .. }
                | Command::Addendum { way, .. } => Some(*way),
                Command::Import { .. }
                | Command::Export { .. }
                | Command::Help
                | Command::Version
                | Command::Explain { .. } => None,
            }
        }
    }

    #[test]
    fn a_list_with_its_rows() {
        let read = |name: &str| Source::File(name.into());
        let import = |list, target, line| {
            let rows = Rows { file: read("f"), batch: read("r") };
            Ok(Command::Import { list, rows, target, line })
        };
        let words = "import a --file-row f --batch-row r -o b --line";
        assert_eq!(parsed(words), import(read("a"), file("b", false), true));
        let words = "--batch-row r import -o b --force --file-row f -";
        assert_eq!(parsed(words), import(Source::StandardInput, file("b", true), false));
        let target = Target::StandardOutput;
        assert_eq!(
            parsed("export a -o -"),
            Ok(Command::Export { table: read("a"), target, line: false })
        );
    }

    #[test]
    fn permissions_of_the_result() {
        for (words, expected) in
            [("--mode 640", 0o640), ("--mode 0604 --force", 0o604), ("--mode 000", 0)]
        {
            let target = match parsed(&format!("read a -o b {words}")) {
                Ok(Command::Read { target, .. }) => target,
                other => panic!("{words}: {other:?}"),
            };
            assert!(matches!(target, Target::File { mode, .. } if mode == Some(expected)));
        }
        for mode in ["", "64", "6400", "1777", "888", "rw-", "+64", "0x1", "00640"] {
            assert!(parsed(&format!("read a -o b --mode {mode}")).is_err(), "{mode}");
        }
    }

    #[test]
    fn entries_to_be_removed() {
        let recall = |words: &str| match parsed(words) {
            Ok(Command::Remove { recall, target, .. }) => (recall, target),
            other => panic!("{words}: {other:?}"),
        };
        let entries = |texts: &[&str]| texts.iter().flat_map(|text| Entries::parse(text)).collect();
        let list = || Some(Source::File("l".into()));
        let (given, target) = recall("remove a 9 3-7 9 -o b --force");
        assert_eq!(given, Recall { entries: entries(&["9", "3-7", "9"]), list: None });
        assert_eq!(target, file("b", true));
        let (given, target) = recall("remove --list l a 2 --in-place --line");
        assert_eq!(given, Recall { entries: entries(&["2"]), list: list() });
        assert_eq!(target, Target::InPlace("a".into()));
        let (given, target) = recall("remove - --list l -o -");
        assert_eq!(given, Recall { entries: vec![], list: list() });
        assert_eq!(target, Target::StandardOutput);
    }

    #[test]
    fn files_to_be_mended() {
        let mending = |words: &str| match parsed(words) {
            Ok(Command::Mend { mending, .. }) => mending,
            other => panic!("{words}: {other:?}"),
        };
        let put = |target, changes: Option<&str>| {
            let changes = changes.map(PathBuf::from);
            Mending::Put { target, changes }
        };
        assert_eq!(mending("mend a -o b --force"), put(file("b", true), None));
        assert_eq!(mending("mend a -o - --changes c"), put(Target::StandardOutput, Some("c")));
        let in_place = Target::InPlace("a".into());
        assert_eq!(mending("mend --changes c --in-place a"), put(in_place, Some("c")));
        for words in ["mend a --dry-run", "mend - --dry-run --line", "mend --dry-run -o b a"] {
            assert_eq!(mending(words), Mending::DryRun, "{words}");
        }
    }

    const MISUSES: &[&str] = &[
        "",
        "chec a",
        "check",
        "check a b",
        "check a --force",
        "check a -o b",
        "check a --lin",
        "check a --lined=yes",
        "check a --plain",
        "show a --line",
        "funds",
        "funds a",
        "funds a 1.00 2.00",
        "funds a 1.5",
        "funds a -1.00",
        "funds a 1,000.00",
        "funds a 1.00 -o b",
        "funds a 1.00 --in-place",
        "read a",
        "read a -o",
        "read a -o b -o c",
        "read a -o b --in-place",
        "read a -o - --line",
        "read a -o - --mode 640",
        "read a -o b --mode 640 --mode 640",
        "check a --mode 640",
        "alter a 1 1.00 --in-place --mode 640",
        "alter a 1 1.00",
        "alter a 1 1.00 -o b --in-place",
        "alter a 1 1.00 --in-place --force",
        "alter - 1 1.00 --in-place",
        "alter a x 1.00 -o b",
        "alter a 1 1.5 -o b",
        "alter a -1 1.00 -o b",
        "remove",
        "remove a",
        "remove a -o b",
        "remove a --in-place",
        "remove a 1",
        "remove a 7-3 -o b",
        "remove a 1,2 -o b",
        "remove a x -o b",
        "remove a -1 -o b",
        "remove a 1 -o b --in-place",
        "remove a 1 --in-place --force",
        "remove - 1 --in-place",
        "remove a --list - -o b",
        "remove a --list -o b",
        "remove a --list",
        "remove a --list l --list l -o b",
        "remove a 1 -o - --line",
        "alter a 1 1.00 -o b --list l",
        "mend",
        "mend a",
        "mend a b -o c",
        "mend a -o b --in-place",
        "mend a --in-place --force",
        "mend - --in-place",
        "mend a --changes c",
        "mend a -o b --changes b",
        "mend a --in-place --changes a",
        "mend a -o b --changes -",
        "mend a -o b --changes",
        "mend a -o b --changes c --changes c",
        "mend a -o - --line",
        "mend a --dry-run --changes c",
        "mend a --dry-run --force",
        "mend a --dry-run -o b --in-place",
        "check a --dry-run",
        "remove a 1 -o b --changes c",
        "alter a 1 1.00 -o b --dry-run",
        "addendum a",
        "addendum a one",
        "import a -o b",
        "import a --file-row f -o b",
        "import a --batch-row r -o b",
        "import a --file-row f --batch-row r",
        "import a --file-row - --batch-row r -o b",
        "import a --file-row f --file-row f --batch-row r -o b",
        "import a --file-row f --batch-row r -o b --lined",
        "import a --file-row f --batch-row",
        "import --file-row f --batch-row r -o b",
        "import a --file-row f --batch-row r -o - --line",
        "export a",
        "export a -o b --lined",
        "export a -o b --file-row f",
        "read a -o b --batch-row r",
        "explain 12 --lined",
        "explain 0",
        "explain 35",
        "explain 31",
        "explain 33",
        "explain 257",
        "explain x",
    ];

    #[test]
    fn what_makes_no_sense_is_misuse() {
        for words in MISUSES {
            assert!(parsed(words).is_err(), "{words}");
        }
    }
}
