//! The table of fields against the proved one: its code, and the definition it is proved to be.

use ach::fields::{Kind, RecordType, RECORD_TYPES};

const PROVED: &str = include_str!("../../../crates/layout/src/lib.rt");
const DEFINED: &str = include_str!("../../../crates/layout/specs/Fields.antt");

/// First column, last column, and the kind as the compiler spells it: `Own(Time)`, `Fixed(94)`.
type Row = (usize, usize, String);

fn rows_of(record_type: &RecordType) -> Vec<Row> {
    let fields = record_type.fields.iter();
    fields.map(|field| (field.first, field.last, format!("{:?}", field.kind))).collect()
}

/// The rows of `const NAME: [Row; N] = [row!(1, 1, Kind::Type), ..];`, a line each.
fn proved_rows(name: &str) -> Vec<Row> {
    let start = PROVED.find(&format!("const {name}: [Row; ")).expect("the table is there");
    let table = PROVED[start..].split_once("= [").expect("a table has rows").1;
    let table = table.split_once("];").expect("a table has an end").0;
    table.split("row!(").skip(1).map(proved_row).collect()
}

fn proved_row(text: &str) -> Row {
    let (row, _) = text.split_once("),").expect("a row has an end");
    let parts: Vec<&str> = row.splitn(3, ", ").collect();
    let kind = ["Kind::", "Own::", "Near::", "Sum::"]
        .iter()
        .fold(parts[2].to_string(), |kind, prefix| kind.replace(prefix, ""));
    (parts[0].parse().unwrap(), parts[1].parse().unwrap(), kind)
}

/// The rows of `name = row 1 1 Kind.Type ∷ row 2 3 (Kind.Fixed 1) ∷ .. ∷ []`, a line each.
fn defined_rows(name: &str) -> Vec<Row> {
    let (_, table) = DEFINED.split_once(&format!("\n{name} =\n")).expect("the list is there");
    let table = table.split_once("∷ []").expect("a list has an end").0;
    table.lines().filter(|line| line.contains("row ")).map(defined_row).collect()
}

fn defined_row(line: &str) -> Row {
    let text = line.trim().trim_start_matches("∷ ").trim_start_matches("row ");
    let parts: Vec<&str> = text.splitn(3, ' ').collect();
    let kind = ["Kind.", "Own.", "Near.", "Sum.", "(", ")"]
        .iter()
        .fold(parts[2].to_string(), |kind, prefix| kind.replace(prefix, ""));
    let kind = match kind.split_once(' ') {
        Some((name, argument)) => format!("{name}({argument})"),
        None => kind,
    };
    (parts[0].parse().unwrap(), parts[1].parse().unwrap(), kind)
}

const NAMES: [(u8, &str, &str); 6] = [
    (b'1', "FILE_HEADER", "file_header"),
    (b'5', "BATCH_HEADER", "batch_header"),
    (b'6', "ENTRY", "entry"),
    (b'7', "ADDENDUM", "addendum"),
    (b'8', "BATCH_CONTROL", "batch_control"),
    (b'9', "FILE_CONTROL", "file_control"),
];

#[test]
fn every_row_is_the_proved_one() {
    for (known, (digit, proved, defined)) in RECORD_TYPES.iter().zip(NAMES) {
        assert_eq!(known.digit, digit);
        let rows = rows_of(known);
        assert_eq!(rows, proved_rows(proved), "{proved}");
        assert_eq!(rows, defined_rows(defined), "{defined}");
    }
}

#[test]
fn rows_are_read_and_not_skipped() {
    let counts = NAMES.map(|(_, proved, defined)| {
        assert_eq!(proved_rows(proved).len(), defined_rows(defined).len());
        proved_rows(proved).len()
    });
    assert_eq!(counts, [13, 13, 11, 5, 11, 8]);
}

#[test]
fn fields_fill_the_record() {
    for known in &RECORD_TYPES {
        assert_eq!(known.fields[0].kind, Kind::Type);
        let mut next = 1;
        for field in known.fields {
            assert_eq!(field.first, next, "{} {}", known.name, field.name);
            next = field.last + 1;
        }
        assert_eq!(next, 95, "{}", known.name);
    }
}
