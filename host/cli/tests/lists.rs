//! Client lists on the command line: import and export on good, refused and missing input.

mod common;

use common::{fed, Folder, Run, WHOLE_TABLE};
use generate::lists::{fields_of, list_of, quoted};
use generate::remittances::with_prenotes_for_remittances;
use std::fs;
use std::path::PathBuf;
use std::process::Command;

const FILE_ROW: &[u8] = include_bytes!("../../../samples/team.file-row");
const BATCH_ROW: &[u8] = include_bytes!("../../../samples/team.batch-row");
const LIST: &[u8] = include_bytes!("../../../samples/team.csv");
const TABLE: &[u8] = include_bytes!("../../../samples/team.table");
const HELD: &str = "batches 1, entries 4, addenda 0, debits 0.00, credits 4262.49";
const GOOD: &str = "22,322070381,4410-22871,100.00,E-1001,ADA";

/// A folder with the two rows, and a list to be imported from it.
struct Desk {
    folder: Folder,
    rows: [PathBuf; 2],
}

impl Desk {
    fn new() -> Self {
        Desk::with_rows(FILE_ROW, BATCH_ROW)
    }

    fn with_rows(file_row: &[u8], batch_row: &[u8]) -> Self {
        let folder = Folder::new();
        let rows = [folder.with("file-row", file_row), folder.with("batch-row", batch_row)];
        Desk { folder, rows }
    }

    /// `ach import list.csv .. -o table`, with more options.
    fn import(&self, list: &[u8], options: &[&str]) -> Run {
        let [file_row, batch_row] = &self.rows;
        let (list, table) = (self.folder.with("list.csv", list), self.folder.path("table"));
        let mut arguments = vec!["import".into(), list.into_os_string(), "--file-row".into()];
        arguments.extend([file_row.into(), "--batch-row".into(), batch_row.into()]);
        arguments.extend(["-o".into(), table.into_os_string()]);
        arguments.extend(options.iter().map(|option| (*option).into()));
        common::ach(arguments)
    }

    /// The list is refused with these words, and no table is left behind.
    #[track_caller]
    fn refuses(&self, list: impl AsRef<[u8]>, words: &str) {
        let name = self.folder.path("list.csv");
        let said = format!("{}: refused, {words}\n", name.display());
        self.import(list.as_ref(), &[]).is(1, "", &said);
        assert_eq!(self.folder.names(), ["batch-row", "file-row", "list.csv"]);
    }
}

#[test]
fn import() {
    let desk = Desk::new();
    let table = desk.folder.path("table");
    let said = format!("{}: 576 bytes written; {HELD}\n", table.display());
    desk.import(LIST, &[]).is(0, &said, "");
    assert_eq!(fs::read(&table).unwrap(), TABLE);
    desk.import(LIST, &["--line"]).fails_with("there is such a file already; --force");
    desk.import(LIST, &["--line", "--force"]).is(0, "OK 1 4 0 0 426249\n", "");
    desk.import(b"X", &["--force"]).refused_with("29", "", "line 1");
    desk.import(b"X", &["--force", "--line"]).is(1, "NO 29 1 0\n", "");
    assert_eq!(fs::read(&table).unwrap(), TABLE);
    assert_eq!(desk.folder.names(), ["batch-row", "file-row", "list.csv", "table"]);
}

#[test]
fn import_from_a_stream_and_to_one() {
    let desk = Desk::new();
    let [file_row, batch_row] = desk.rows.each_ref().map(|path| path.to_str().unwrap());
    let rows = ["--file-row", file_row, "--batch-row", batch_row];
    let run = fed(&[&["import", "-", "-o", "-"], rows.as_slice()].concat(), LIST);
    let table = std::str::from_utf8(TABLE).unwrap();
    run.is(0, table, &format!("standard output: 576 bytes written; {HELD}\n"));
    let run = fed(&[&["import", "-", "-o", "-"], rows.as_slice()].concat(), b"\r\n");
    run.refused_with("29", "", "standard input: refused");
}

#[test]
fn what_is_not_there() {
    let desk = Desk::new();
    let [file_row, batch_row] = &desk.rows;
    let (list, table) = (desk.folder.with("list.csv", LIST), desk.folder.path("table"));
    let none = desk.folder.path("none");
    let rows = |file: &PathBuf, batch: &PathBuf, list: &PathBuf| {
        ach!("import", list, "--file-row", file, "--batch-row", batch, "-o", table)
    };
    rows(file_row, batch_row, &none).fails_with("none: No such file or directory");
    rows(&none, batch_row, &list).fails_with("none: No such file or directory");
    rows(file_row, &none, &list).fails_with("none: No such file or directory");
    let folder = desk.folder.path("");
    rows(&folder, batch_row, &list).fails_with("this is a folder, not a file");
    ach!("export", none, "-o", table).fails_with("none: No such file or directory");
    ach!("import", list, "-o", table).fails_with("--file-row");
    assert_eq!(desk.folder.names(), ["batch-row", "file-row", "list.csv"]);
}

#[test]
fn export() {
    let folder = Folder::new();
    let (table, list) = (folder.with("good.table", WHOLE_TABLE), folder.path("list.csv"));
    let held = "lines 2, debits 0.00, credits 125.50\n  \
                left out: file header, batch headers 1, traces 2, addenda 1";
    let lines = "\"22\",\"322070381\",\"4410-22871\",\"100.00\",\"E-1001\",\"MARLOWE, ADA\"\r\n\
                 \"22\",\"322070381\",\"009831740\",\"25.50\",\"E-1002\",\"OKAFOR, BEN\"\r\n";
    let said = format!("{}: {} bytes written; {held}\n", list.display(), lines.len());
    ach!("export", table, "-o", list).is(0, &said, "");
    assert_eq!(fs::read(&list).unwrap(), lines.as_bytes());
    ach!("export", table, "-o", list).fails_with("there is such a file already; --force");
    // The line is that of the table.
    ach!("export", table, "-o", list, "--force", "--line").is(0, "OK 1 2 1 0 12550\n", "");
    let said = format!("standard output: {} bytes written; {held}\n", lines.len());
    fed(&["export", "-", "-o", "-"], WHOLE_TABLE).is(0, lines, &said);
    let mut wrong = WHOLE_TABLE.to_vec();
    wrong[6 + 85 + 6 + 95 + 6 + 93 + 10] = b'7';
    let bad = folder.with("bad.table", &wrong);
    let other = folder.path("other.csv");
    let place =
        "record 4, type 6 entry 2, field 4 Check digit, column 12 of the file to be written";
    ach!("export", bad, "-o", other).refused_with("12", "", place);
    ach!("export", bad, "-o", other, "--line").is(1, "NO 12 4 4\n", "");
    ach!("export", folder.with("short.table", b"000001"), "-o", other)
        .refused_with("24", "", "shape");
    assert_eq!(folder.names(), ["bad.table", "good.table", "list.csv", "short.table"]);
}

/// What a list has no fields for is said to be left out, if the table has it.
#[test]
fn what_an_export_leaves_out() {
    let folder = Folder::new();
    let mut plan = generate::sample();
    plan.batches[0].entries[1].addendum = None;
    let said = |plan: &generate::Plan| {
        let run = ach!(
            "export",
            folder.with("table", &plan.table()),
            "-o",
            folder.path("list"),
            "--force"
        );
        assert_eq!(run.status, 0, "{run:?}");
        run.out.lines().nth(1).unwrap().to_string()
    };
    assert_eq!(said(&plan), "  left out: file header, batch headers 1, traces 2");
    plan.batches[0].entries[0].discretionary = "A".into();
    let mut second = plan.batches[0].clone();
    second.number += 1;
    plan.batches.push(second);
    let expected = "  left out: file header, batch headers 2, traces 4, discretionary data 2";
    assert_eq!(said(&plan), expected);
}

/// From lines to a file and back to lines: the six fields of every line are those of the first.
#[test]
fn there_and_back() {
    let mut random = generate::Random::new(9);
    for _ in 0..10 {
        let plan = with_prenotes_for_remittances(generate::plan(&mut random, 1, 8));
        let list = list_of(&mut random, &plan, 0);
        let desk = Desk::with_rows(&list.file_row, &list.batch_row);
        assert_eq!(desk.import(&list.lines, &[]).status, 0);
        let path = |name: &str| desk.folder.path(name);
        let (table, file) = (path("table"), path("file.ach"));
        assert_eq!(ach!("write", table, "-o", file).status, 0);
        assert_eq!(ach!("check", file).status, 0);
        assert_eq!(ach!("read", file, "-o", path("again")).status, 0);
        assert_eq!(fs::read(path("again")).unwrap(), fs::read(&table).unwrap());
        assert_eq!(ach!("export", path("again"), "-o", path("back.csv")).status, 0);
        let lines = plan.batches[0].entries.iter().map(|entry| {
            let fields = fields_of(entry).map(|field| quoted(without_blanks(&field)));
            [fields.join(b",".as_slice()).as_slice(), b"\r\n"].concat()
        });
        assert_eq!(fs::read(path("back.csv")).unwrap(), lines.collect::<Vec<_>>().concat());
    }
}

fn without_blanks(field: &[u8]) -> &[u8] {
    let end = field.iter().rposition(|byte| *byte != b' ').map_or(0, |last| last + 1);
    &field[..end]
}

/// Every list among the samples has its line, and words where it is refused.
#[test]
fn every_list_of_the_samples() {
    let desk = Desk::new();
    let files = samples::by_name();
    for (name, line) in samples::list_index() {
        let list = &files[name];
        let status = i32::from(line.starts_with("NO "));
        desk.import(list, &["--line", "--force"]).is(status, &format!("{line}\n"), "");
        if status == 1 {
            let run = desk.import(list, &["--force"]);
            let number = line.split(' ').nth(1).unwrap();
            run.refused_with(number, "", "\n  where  line ");
            assert!(run.err.contains("\n  stands ") && run.err.contains("\n  due    "), "{name}");
        }
    }
}

const NO_LINE: &str = "29: the line is not six fields with commas between them";
const SIX: &str = "six fields with commas between them: code, routing number, account, amount, \
                   identification, name";

#[test]
fn the_words_for_a_line_that_is_none() {
    let desk = Desk::new();
    for (list, place, stands, due) in [
        ("\r\n".to_string(), "line 1", "an empty line", SIX),
        (format!("{GOOD}\r\n\r\n{GOOD}"), "line 2", "an empty line", SIX),
        (format!("{GOOD}\r\n1,2"), "line 2", "2 fields", SIX),
        (format!("{GOOD},,"), "line 1", "8 fields", SIX),
        (
            format!("{GOOD}\r\n22,\"3\"x"),
            "line 2, field 2 routing number",
            "\"x\" behind the quote that closes \"3\"",
            "a comma or the line's end there; a quote inside a field is doubled",
        ),
        (
            "22,322070381,7,1.00,,THE \"RED\" HOUSE".to_string(),
            "line 1, field 6 name",
            "a quote behind \"THE \"",
            "quotes around the whole field, and every quote in it doubled",
        ),
        (
            "22,322070381,7,1.00,,JOS\u{C9}".to_string(),
            "line 1, field 6 name",
            "\"\\xC3\" behind \"JOS\"",
            "plain letters, digits and signs: no tab, no accent, no mark before the list",
        ),
        (
            format!("{GOOD}\r22"),
            "line 1, field 6 name",
            "\"\\x0D\" alone behind \"ADA\"",
            "\"\\x0D\\x0A\", CR LF at the end of a line; in a field, quotes around it",
        ),
        (
            "22,\"322".to_string(),
            "line 1, field 2 routing number",
            "a quote that opens the field, and none that closes it",
            "a quote at the end of the field",
        ),
    ] {
        let words = format!("{NO_LINE}\n  where  {place}\n  stands {stands}\n  due    {due}");
        desk.refuses(list, &words);
    }
}

#[test]
fn hints_for_a_line_that_is_none() {
    let desk = Desk::new();
    let hint = |list: &str, words: &str| {
        let run = desk.import(list.as_bytes(), &[]);
        assert!(run.err.ends_with(&format!("\n  hint   {words}\n")), "{run:?}");
    };
    hint(&format!("{GOOD}\n{GOOD}\n"), "where LF alone ends the lines, save the list with CR LF");
    let mark = "a byte order mark stands before the list: save it without one";
    hint(&format!("\u{FEFF}{GOOD}"), mark);
    hint(&GOOD.replace(',', ";"), "semicolons stand in the line: save the list with commas");
    let missing = "a line break stands inside the field: the quote that closes it may be missing";
    hint(&format!("22,322070381,7,1.00,,\"ADA\r\n{GOOD}\r\n"), missing);
    let no_header = "a list has no header line";
    hint(&format!("CODE,BANK,ACCOUNT,AMOUNT,ID,NAME\r\n{GOOD}"), no_header);
    hint("TC,BANK,ACCOUNT,AMOUNT,ID,NAME", no_header);
}

#[test]
fn the_words_for_a_field() {
    let desk = Desk::new();
    for amount in ["100", "1.5", "-1.00", "1 000.00", "100000000.00", ""] {
        let words = format!(
            "30: the amount of the line is not digits, a point and two digits, or is too large
  where  line 2, field 4 amount
  stands \"{amount}\"
  due    digits, a point and two digits, at most 99999999.99"
        );
        desk.refuses(format!("{GOOD}\r\n22,322070381,7,{amount},,ADA"), &words);
    }
    let words = "32: the field of the line is too long for its columns
  where  line 1, field 6 name
  stands \"A NAME \"OF\" 25 CHARACTERS\", 25 characters
  due    at most 22 characters";
    desk.refuses("22,322070381,7,1.00,,\"A NAME \"\"OF\"\" 25 CHARACTERS\"", words);
    let (end, digits) = ("7".repeat(60), "7".repeat(100));
    let words = format!(
        "32: the field of the line is too long for its columns
  where  line 2, field 3 account
  stands ..\"{end}\", 100 characters
  due    at most 17 characters"
    );
    desk.refuses(format!("{GOOD}\r\n22,322070381,{digits},1.00,,ADA"), &words);
}

/// What the formed file is refused for, with the line of the list that it comes from.
#[test]
fn the_words_for_a_record() {
    let desk = Desk::new();
    let words = "12: the check digit is wrong
  where  line 2, field 2 routing number; record 4, type 6 entry 2, field 4 Check digit, column 12 \
of the file to be written
  stands \"2\"
  due    \"1\", if the eight digits before it are right";
    desk.refuses(format!("{GOOD}\r\n22,322070382,7,1.00,,ADA\r\n"), words);
    let words = "7: a character stands here that is not allowed
  where  line 1, field 6 name; record 3, type 6 entry 1, field 8 Name, columns 55-76 \
of the file to be written
  stands \"Ada                   \"
  due    capital letters, digits and signs, from the first column on";
    desk.refuses("22,322070381,7,1.00,,Ada", words);
    let words = "15: the code is not allowed under the batch's service class
  where  line 1, field 1 code; record 3, type 6 entry 1, field 2 Transaction code, columns 2-3 \
of the file to be written
  stands \"27\"
  due    22, 23, 32 or 33: the batch is for credits";
    desk.refuses("27,322070381,7,1.00,,ADA", words);
    let words = "3: a record of this type may not stand here
  stands nothing: the list is empty
  due    at least one line";
    desk.refuses("", words);
    let words = "20: the sum of the amounts is above 9,999,999,999.99
  where  record 104, type 8 batch control, field 6 Total credit amount, columns 33-44 \
of the file to be written
  due    a sum of at most 9999999999.99";
    desk.refuses("22,322070381,7,99999999.99,,ADA\r\n".repeat(101), words);
}

#[test]
fn the_words_for_the_rows() {
    let mut wrong = FILE_ROW.to_vec();
    wrong[9] = b'2';
    let words = "12: the check digit is wrong
  where  file row; record 1, type 1 file header, field 3 Immediate destination, columns 4-13 \
of the file to be written
  stands \" 322070382\"
  due    \" 322070381\", if all digits but the last are right";
    Desk::with_rows(&wrong, BATCH_ROW).refuses(LIST, words);
    let mut wrong = BATCH_ROW.to_vec();
    wrong[..3].copy_from_slice(b"210");
    let words = "11: the value is not one of those known
  where  batch row; record 2, type 5 batch header, field 2 Service class code, columns 2-4 \
of the file to be written
  stands \"210\"
  due    200 (credits and debits), 220 (credits) or 225 (debits)";
    Desk::with_rows(FILE_ROW, &wrong).refuses(LIST, words);
}

#[test]
fn rows_of_the_wrong_length() {
    let due = "file row 85 bytes, batch row 95 bytes, lines 999999 at most";
    let shape = "24: the table is not of the right shape";
    let words = |stands: &str| format!("{shape}\n  stands {stands}\n  due    {due}");
    let with_break = |row: &[u8]| [row, b"\n"].concat();
    let hint = "\n  hint   a row's file ends with a line break, which counts: leave it out";
    let stands = words("file row 86 bytes, batch row 95 bytes, lines 4") + hint;
    Desk::with_rows(&with_break(FILE_ROW), BATCH_ROW).refuses(LIST, &stands);
    let stands = words("file row 85 bytes, batch row 96 bytes, lines 4") + hint;
    Desk::with_rows(FILE_ROW, &with_break(BATCH_ROW)).refuses(LIST, &stands);
    let stands = words("file row 0 bytes, batch row 94 bytes, lines 4");
    Desk::with_rows(b"", &BATCH_ROW[1..]).refuses(LIST, &stands);
    let stands = words("file row more than 9999 bytes, batch row 95 bytes, lines 4");
    Desk::with_rows(&[b'X'; 10_000], BATCH_ROW).refuses(LIST, &stands);
    // Every line comes before the rows.
    Desk::with_rows(&[b'X'; 10_000], b"").import(b"X", &["--line"]).is(1, "NO 29 1 0\n", "");
    Desk::with_rows(&[b'X'; 10_000], b"").import(LIST, &["--line"]).is(1, "NO 24 0 0\n", "");
}

#[test]
fn as_many_lines_as_there_may_be() {
    let desk = Desk::new();
    let line = "23,322070381,1,0.00,,A\r\n";
    let words = "1: the length of the file is wrong
  stands 999997 lines
  due    at most 999996 lines: a file has a million records";
    desk.refuses(line.repeat(999_997), words);
    let words = "24: the table is not of the right shape
  stands file row 85 bytes, batch row 95 bytes, lines 1000000
  due    file row 85 bytes, batch row 95 bytes, lines 999999 at most";
    desk.refuses(line.repeat(1_000_000), words);
    let run = desk.import(line.repeat(999_996).as_bytes(), &["--line"]);
    run.is(0, "OK 1 999996 0 0 0\n", "");
}

#[test]
fn a_list_that_is_too_long_is_not_read() {
    let desk = Desk::new();
    let [file_row, batch_row] = &desk.rows;
    let (list, table) = (desk.folder.path("huge.csv"), desk.folder.path("table"));
    // A terabyte of nothing: whoever reads it does not come back in time.
    fs::File::create(&list).unwrap().set_len(1 << 40).unwrap();
    let run = ach!("import", list, "--file-row", file_row, "--batch-row", batch_row, "-o", table);
    run.fails_with("huge.csv: more than 1000000000 bytes are not read as a list");
    ach!("export", list, "-o", table, "--line").is(1, "NO 24 0 0\n", "");
    assert_eq!(desk.folder.names(), ["batch-row", "file-row", "huge.csv"]);
}

/// A list whose first line is none is refused for that, and not read to its end; one whose first
/// line does not end is not read on either. The limit on memory is that of the shell.
#[test]
fn a_list_without_hope_is_left_early() {
    let desk = Desk::new();
    let import = |list: &str, options: &str| {
        let script =
            "ulimit -v 300000; exec \"$0\" import \"$1\" --file-row \"$2\" --batch-row \"$3\" $4";
        let mut shell = Command::new("sh");
        shell.args(["-c", script, env!("CARGO_BIN_EXE_ach"), list]).args(&desk.rows).arg(options);
        Run::of(shell.output().unwrap())
    };
    let table = desk.folder.path("table");
    let options = format!("-o {}", table.display());
    import("/dev/zero", &format!("{options} --line")).is(1, "NO 29 1 0\n", "");
    import("/dev/zero", &options).refused_with("29", "", "stands \"\\x00\" behind \"\"\n");
    // A file of the longest length that is read.
    let zeros = desk.folder.path("zeros");
    fs::File::create(&zeros).unwrap().set_len(1_000_000_000).unwrap();
    import(zeros.to_str().unwrap(), &format!("{options} --line")).is(1, "NO 29 1 0\n", "");

    let endless = "7".repeat(3_000_000);
    let run = desk.import(format!("22,{endless}").as_bytes(), &[]);
    run.fails_with("list.csv: a first line of more than 1048576 bytes is not read");
    // A faulty line behind a good one is told by its own number, however much follows.
    let list = format!("{GOOD}\r\n\0{endless}");
    desk.import(list.as_bytes(), &["--line"]).is(1, "NO 29 2 0\n", "");
    assert!(!table.exists());
}
