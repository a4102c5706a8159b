//! Client lists: the grammar of lines, their fields, the rows, the formed file, and the way back.

mod common;

use common::{check_room, parts, Parts};
use generate::remittances::with_prenotes_for_remittances;
use generate::tables::Sections;
use generate::{plan, sample, Batch, Entry, Plan, Random};
use independent::{check, export, export_into, import, import_into, write, Way};

/// The rows of the sample's file header and of its batch.
fn rows() -> (Vec<u8>, Vec<u8>) {
    let table = sample().table();
    let [header, batch, ..] = Sections::of(&table).rows;
    (table[header].to_vec(), table[batch].to_vec())
}

fn imported(lines: impl AsRef<[u8]>) -> Result<Vec<u8>, Parts> {
    let (file_row, batch_row) = rows();
    import(&file_row, &batch_row, lines.as_ref()).map_err(parts)
}

fn refused(lines: impl AsRef<[u8]>) -> Parts {
    imported(lines).expect_err("a refusal is due")
}

/// A line of fields that need no quotes.
fn line(fields: [&str; 6]) -> String {
    fields.join(",")
}

const GOOD: [&str; 6] = ["22", "322070381", "4410-22871", "100.00", "E-1001", "ADA"];

/// A good line with one field replaced; fields count from 1.
fn with(field: usize, text: &str) -> String {
    let mut fields = GOOD;
    fields[field - 1] = text;
    line(fields)
}

/// The plan that a list becomes: the sample's header and batch, the entries numbered from 1.
fn plan_of(entries: Vec<Entry>) -> Plan {
    let mut plan = sample();
    let numbered = entries.into_iter().zip(1..);
    plan.batches[0].entries = numbered
        .map(|(entry, trace)| Entry {
            trace,
            discretionary: String::new(),
            addendum: None,
            ..entry
        })
        .collect();
    plan
}

fn good_entry() -> Entry {
    Entry { name: "ADA".into(), ..sample().batches.remove(0).entries.remove(0) }
}

#[test]
fn a_list_becomes_a_table() {
    let lines = "22,322070381,4410-22871,100.00,E-1001,\"MARLOWE, ADA\"\r\n\
                 \"22\",\"322070381\",\"009831740\",\"25.50\",\"E-1002\",\"OKAFOR, BEN\"\r\n\
                 32,053000219,7,0000.01,,\"THE \"\"RED\"\" HOUSE\"";
    let mut entries = sample().batches.remove(0).entries;
    entries.push(Entry {
        code: 32,
        routing: 5_300_021,
        account: "7".into(),
        amount: 1,
        identification: String::new(),
        name: "THE \"RED\" HOUSE".into(),
        ..entries[0].clone()
    });
    let expected = plan_of(entries);
    assert_eq!(imported(lines), Ok(expected.table()));
    assert_eq!(expected.table().len(), 204 + 3 * 93);
    assert_eq!(write(Way::Plain, &expected.table()), Ok(expected.file()));
}

#[test]
fn what_the_batch_row_counts_is_filled_in() {
    let (file_row, mut batch_row) = rows();
    let expected = plan_of(vec![good_entry(); 3]).table();
    let lines = [line(GOOD), line(GOOD), line(GOOD)].join("\r\n");
    for count in ["000000", "000002", "999999", "      ", "COUNT?", "\r\n\u{0}\u{7F}ab"] {
        batch_row[89..].copy_from_slice(count.as_bytes());
        assert_eq!(import(&file_row, &batch_row, lines.as_bytes()), Ok(expected.clone()));
    }
}

#[test]
fn the_bank_of_every_trace_is_the_batchs() {
    let (file_row, mut batch_row) = rows();
    batch_row[74..82].copy_from_slice(b"05300021");
    let table = import(&file_row, &batch_row, line(GOOD).as_bytes()).unwrap();
    let end = format!("ADA{:21}0053000210000001000000", "");
    assert!(table.ends_with(end.as_bytes()));
}

#[test]
fn a_break_at_the_very_end_starts_no_line() {
    let one = plan_of(vec![good_entry()]).table();
    let two = plan_of(vec![good_entry(); 2]).table();
    let good = line(GOOD);
    assert_eq!(imported(&good), Ok(one.clone()));
    assert_eq!(imported(format!("{good}\r\n")), Ok(one));
    assert_eq!(imported(format!("{good}\r\n{good}")), Ok(two.clone()));
    assert_eq!(imported(format!("{good}\r\n{good}\r\n")), Ok(two));
}

/// No lines leave a batch without entries, which the formed file is refused for.
#[test]
fn empty_input_has_no_lines() {
    assert_eq!(refused(""), (3, 3, 1));
}

#[test]
fn empty_lines() {
    let good = line(GOOD);
    assert_eq!(refused("\r\n"), (29, 1, 0));
    assert_eq!(refused("\r\n\r\n"), (29, 1, 0));
    assert_eq!(refused(format!("\r\n{good}")), (29, 1, 0));
    assert_eq!(refused(format!("{good}\r\n\r\n")), (29, 2, 0));
    assert_eq!(refused(format!("{good}\r\n\r\n{good}\r\n")), (29, 2, 0));
}

/// Quoted or not, every field is the same.
#[test]
fn quotes_change_nothing() {
    let expected = plan_of(vec![good_entry()]).table();
    for chosen in 0..64 {
        let mut fields = GOOD.map(str::to_string);
        for (index, field) in fields.iter_mut().enumerate() {
            if chosen >> index & 1 == 1 {
                *field = format!("\"{field}\"");
            }
        }
        assert_eq!(imported(fields.join(",")), Ok(expected.clone()), "{fields:?}");
    }
}

#[test]
fn doubled_quotes() {
    for (text, name) in [
        ("\"A\"\"B\"", "A\"B"),
        ("\"\"\"\"", "\""),
        ("\"\"\"A\"\"\"", "\"A\""),
        ("\"\"\"\"\"\"", "\"\""),
        ("\"A,B\"\",\"", "A,B\","),
    ] {
        let entry = Entry { name: name.into(), ..good_entry() };
        assert_eq!(imported(with(6, text)), Ok(plan_of(vec![entry]).table()), "{text}");
    }
}

/// What the grammar does not know, in a field of the first line and of a later one.
#[test]
fn no_lines_of_the_grammar() {
    let good = line(GOOD);
    for text in [
        "A\"B",         // a quote in an unquoted field
        "A\"",          // a quote behind one
        " \"A\"",       // a blank before the opening quote
        "\"A\" ",       // a blank behind the closing quote
        "\"A\"B",       // text behind it
        "\"A\"\"",      // a doubled quote, and never closed
        "\"",           // opened, and never closed
        "\"A",          // the same behind text
        "\"A,B\r\nC",   // the same over breaks
        "A\tB",         // a tab
        "\"A\tB\"",     // and in quotes
        "A\x7FB",       // delete
        "\"A\x7FB\"",   // and in quotes
        "A\0B",         // nothing
        "A\u{E9}B",     // a letter of two bytes above 0x7E
        "\"\u{E9}\"",   // and in quotes
        "A\rB",         // a lone CR
        "A\nB",         // a lone LF
        "A\r",          // CR at the end
        "A\n",          // LF at the end
        "A\r\r\n",      // CR CR LF
        "A\n\r",        // LF CR
        "\"A\"\n",      // LF behind a closing quote
        "\"A\"\r\"B\"", // CR between quotes
    ] {
        assert_eq!(refused(with(6, text)), (29, 1, 0), "{text:?}");
        assert_eq!(refused(format!("{good}\r\n{}", with(6, text))), (29, 2, 0), "{text:?}");
        // In the first field, where a quote is never closed the rest of the list is in it.
        assert_eq!(refused(format!("{}\r\n{good}", with(1, text))), (29, 1, 0), "{text:?}");
    }
}

#[test]
fn a_byte_order_mark_is_none_of_a_lines_bytes() {
    let marked = [b"\xEF\xBB\xBF", line(GOOD).as_bytes()].concat();
    assert_eq!(refused(marked), (29, 1, 0));
    let wide: Vec<u8> = line(GOOD).bytes().flat_map(|byte| [byte, 0]).collect();
    assert_eq!(refused(wide), (29, 1, 0));
}

/// A header line is a line like others: its amount has no digits.
#[test]
fn there_is_no_header_line() {
    let header = line(["CODE", "ROUTING", "ACCOUNT", "AMOUNT", "ID", "NAME"]);
    assert_eq!(refused(format!("{header}\r\n{}", line(GOOD))), (32, 1, 1));
    let header = line(["TC", "ROUTING", "ACCOUNT", "AMOUNT", "ID", "NAME"]);
    assert_eq!(refused(header), (30, 1, 4));
}

#[test]
fn every_byte_in_a_field_and_in_quotes() {
    for byte in 0..=255_u8 {
        let in_name = |open: &str| {
            let mut fields = line(GOOD).into_bytes();
            fields.truncate(fields.len() - 3);
            [&fields, open.as_bytes(), b"A", &[byte], b"B", open.as_bytes()].concat()
        };
        let as_text = match byte {
            b'a'..=b'z' => Err((7, 3, 8)),
            b' '..=b'~' => Ok(()),
            _ => Err((29, 1, 0)),
        };
        let plain = if matches!(byte, b'"' | b',') { Err((29, 1, 0)) } else { as_text };
        assert_eq!(imported(in_name("")).map(|_| ()), plain, "{byte:#x}");
        let quoted = match byte {
            b'"' => Err((29, 1, 0)),
            // The formed file's text takes no breaks.
            b'\r' | b'\n' => Err((7, 3, 8)),
            _ => as_text,
        };
        assert_eq!(imported(in_name("\"")).map(|_| ()), quoted, "{byte:#x}");
    }
}

#[test]
fn a_break_in_quotes_stays_inside_its_line() {
    let broken = with(6, "\"A\r\nB\"");
    assert_eq!(refused(&broken), (7, 3, 8));
    // The line behind it is the second one.
    assert_eq!(refused(format!("{broken}\r\nX")), (29, 2, 0));
    assert_eq!(refused(format!("{broken}\r\n{}", with(4, "1"))), (30, 2, 4));
}

#[test]
fn a_line_has_six_fields() {
    for count in (1..=12).filter(|count| *count != 6) {
        assert_eq!(refused(vec!["1"; count].join(",")), (29, 1, 0), "{count}");
        assert_eq!(refused(vec!["\"1\""; count].join(",")), (29, 1, 0), "{count}");
    }
    assert_eq!(refused(format!("{},", line(GOOD))), (29, 1, 0));
    assert_eq!(refused(",,,,"), (29, 1, 0));
    assert_eq!(refused(",,,,,,"), (29, 1, 0));
    // Six empty ones: the amount is the first that has a form.
    assert_eq!(refused(",,,,,"), (30, 1, 4));
}

#[test]
fn amounts() {
    for (text, cents) in [
        ("0.01", 1),
        ("0.10", 10),
        ("1.00", 100),
        ("00.01", 1),
        ("12345.67", 1_234_567),
        ("99999999.99", 9_999_999_999),
        ("000000000000000099999999.99", 9_999_999_999),
    ] {
        let expected = plan_of(vec![Entry { amount: cents, ..good_entry() }]);
        assert_eq!(imported(with(4, text)), Ok(expected.table()), "{text}");
    }
    let zeros = "0".repeat(5_000);
    let expected = plan_of(vec![Entry { amount: 1_007, ..good_entry() }]);
    assert_eq!(imported(with(4, &format!("{zeros}10.07"))), Ok(expected.table()));
    assert_eq!(refused(with(4, &format!("1{zeros}.00"))), (30, 1, 4));
}

#[test]
fn no_amounts() {
    for text in [
        "",
        "0",
        "1",
        "100",
        ".",
        ".5",
        ".50",
        "1.",
        "1.5",
        "1.234",
        "1.2.3",
        "1..00",
        "0.0",
        "+1.00",
        "-1.00",
        " 1.00",
        "1.00 ",
        "1 000.00",
        "1.0O",
        "O.00",
        "$1.00",
        "1e2.00",
        "1.-1",
        "..00",
        "1:00",
        "1/00",
        "100000000.00",
        "0100000000.00",
        "999999999.99",
        "18446744073709551616.00",
        "184467440737095516.17",
    ] {
        assert_eq!(refused(with(4, text)), (30, 1, 4), "{text}");
    }
    assert_eq!(refused(with(4, "\"1,234.56\"")), (30, 1, 4));
    assert_eq!(refused(with(4, "\"1\"\"00\"")), (30, 1, 4));
}

/// "0.00" has the form; whether the code may carry it is for the formed file to say.
#[test]
fn nothing_to_pay() {
    assert_eq!(refused(with(4, "0.00")), (14, 3, 6));
    let prenote = line(["23", "322070381", "4410-22871", "00000.00", "E-1001", "ADA"]);
    let expected = plan_of(vec![Entry { code: 23, amount: 0, ..good_entry() }]);
    assert_eq!(imported(prenote), Ok(expected.table()));
}

const WIDTHS: [(usize, usize); 5] = [(1, 2), (2, 9), (3, 17), (5, 15), (6, 22)];

#[test]
fn fields_at_their_width_and_above() {
    for (field, width) in WIDTHS {
        let too_long = (32, 1, field as u8);
        for text in ["7", " ", "A", "a"] {
            let longer = text.repeat(width + 1);
            assert_eq!(refused(with(field, &longer)), too_long);
            assert_eq!(refused(with(field, &format!("\"{longer}\""))), too_long);
            assert_ne!(imported(with(field, &text.repeat(width))), Err(too_long));
        }
        // A quote or a break counts as it stands in the field, once.
        let quotes = |count| format!("\"{}\"", "\"\"".repeat(count));
        assert_eq!(refused(with(field, &quotes(width + 1))), too_long);
        assert_ne!(imported(with(field, &quotes(width))), Err(too_long));
        let breaks = |count| format!("\"{}\"", "\n".repeat(count));
        assert_eq!(refused(with(field, &breaks(width + 1))), too_long);
        assert_ne!(imported(with(field, &breaks(width))), Err(too_long));
        assert_eq!(refused(with(field, &"7".repeat(10_000))), too_long);
    }
    let entry = Entry { account: "7".repeat(17), name: "\"".repeat(22), ..good_entry() };
    let name = format!("\"{}\"", "\"\"".repeat(22));
    let lines = line(["22", "322070381", &"7".repeat(17), "100.00", "E-1001", &name]);
    assert_eq!(imported(lines), Ok(plan_of(vec![entry]).table()));
}

#[test]
fn nothing_is_trimmed() {
    assert_eq!(refused(with(6, &format!("ADA{}", " ".repeat(20)))), (32, 1, 6));
    assert_eq!(imported(with(6, &format!("ADA{}", " ".repeat(19)))), imported(line(GOOD)));
    assert_eq!(refused(with(6, " ADA")), (9, 3, 8));
    assert_eq!(refused(with(1, "22 ")), (32, 1, 1));
    assert_eq!(refused(with(5, " E-1")), (9, 3, 7));
}

/// What is too short is filled up, and the formed file says what it lacks.
#[test]
fn too_short_is_the_formed_files() {
    for (field, text, refusal) in [
        (1, "", (6, 3, 2)),
        (1, "2", (6, 3, 2)),
        (2, "", (6, 3, 3)),
        (2, "32207038", (6, 3, 4)),
        (2, "322070382", (12, 3, 4)),
        (2, "422070381", (13, 3, 3)),
        (3, "", (8, 3, 5)),
        (3, "12 3", (9, 3, 5)),
        (6, "", (8, 3, 8)),
        (6, "Ada", (7, 3, 8)),
        (1, "25", (11, 3, 2)),
        (1, "24", (28, 3, 2)),
        (1, "27", (15, 3, 2)),
    ] {
        assert_eq!(refused(with(field, text)), refusal, "{field} {text}");
    }
    assert!(imported(with(5, "")).is_ok());
}

#[test]
fn the_order_inside_a_line() {
    // Not six fields, or not in the grammar, before whatever the fields say.
    assert_eq!(refused("22222,322070381,1,1"), (29, 1, 0));
    assert_eq!(refused("22222,322070381,1,1,A,B\tC"), (29, 1, 0));
    assert_eq!(refused("22222,322070381,1,1,A,\"B"), (29, 1, 0));
    let long = "7".repeat(30);
    let faulty = ["222", &long, &long, "1.5", &long, &long];
    for first in 0..6 {
        // The fields before are in order, this one and all behind it are not.
        let mut fields = GOOD;
        fields[first..].copy_from_slice(&faulty[first..]);
        let number = if first == 3 { 30 } else { 32 };
        assert_eq!(refused(line(fields)), (number, 1, first as u8 + 1));
    }
}

#[test]
fn the_first_faulty_line_is_named() {
    let (good, amount, long) = (line(GOOD), with(4, "1"), with(1, "222"));
    assert_eq!(refused(format!("{good}\r\n{amount}\r\n{long}\r\nX")), (30, 2, 4));
    assert_eq!(refused(format!("{good}\r\n{long}\r\n{amount}\r\nX")), (32, 2, 1));
    assert_eq!(refused(format!("{good}\r\nX\r\n{long}")), (29, 2, 0));
    // A line that is none comes before what the formed file finds in a line before it.
    assert_eq!(refused(format!("{}\r\nX", with(2, "322070382"))), (29, 2, 0));
}

#[test]
fn line_k_is_record_k_and_two() {
    let (good, bad) = (line(GOOD), with(2, "322070382"));
    for number in 1..=5 {
        let mut lines = vec![good.clone(); 5];
        lines[number - 1] = bad.clone();
        assert_eq!(refused(lines.join("\r\n")), (12, number as u64 + 2, 4));
    }
}

#[test]
fn lengths_of_the_rows() {
    let (file_row, batch_row) = rows();
    let good = line(GOOD);
    for file_length in [0, 1, 84, 85, 86, 94, 95, 170] {
        for batch_length in [0, 1, 85, 94, 95, 96, 190] {
            let file_row = file_row.repeat(2)[..file_length].to_vec();
            let batch_row = batch_row.repeat(2)[..batch_length].to_vec();
            let given = |lines: &str| import(&file_row, &batch_row, lines.as_bytes());
            if (file_length, batch_length) == (85, 95) {
                assert!(given(&good).is_ok());
                continue;
            }
            assert_eq!(given(&good).map_err(parts), Err((24, 0, 0)));
            assert_eq!(given("").map_err(parts), Err((24, 0, 0)));
            // All lines come before the rows, and the rows before what the formed file says.
            assert_eq!(given("X").map_err(parts), Err((29, 1, 0)));
            assert_eq!(
                given(&format!("{good}\r\n{}", with(4, "1"))).map_err(parts),
                Err((30, 2, 4))
            );
            assert_eq!(given(&with(2, "322070382")).map_err(parts), Err((24, 0, 0)));
        }
    }
}

#[test]
fn faults_of_the_rows_are_the_formed_files() {
    let (file_row, batch_row) = rows();
    let good = line(GOOD);
    let mut wrong = file_row.clone();
    wrong[9] = b'2';
    assert_eq!(import(&wrong, &batch_row, good.as_bytes()).map_err(parts), Err((12, 1, 3)));
    let mut wrong = batch_row.clone();
    wrong[..3].copy_from_slice(b"225");
    assert_eq!(import(&file_row, &wrong, good.as_bytes()).map_err(parts), Err((15, 3, 2)));
    wrong[..3].copy_from_slice(b"210");
    assert_eq!(import(&file_row, &wrong, good.as_bytes()).map_err(parts), Err((11, 2, 2)));
    let mut wrong = batch_row;
    wrong[74] = b'X';
    assert_eq!(import(&file_row, &wrong, good.as_bytes()).map_err(parts), Err((6, 2, 12)));
}

#[test]
fn a_sum_above_the_limit() {
    let most = with(4, "99999999.99");
    assert!(imported(vec![most.clone(); 100].join("\r\n")).is_ok());
    assert_eq!(refused(vec![most; 101].join("\r\n")), (20, 104, 6));
}

/// A count has six digits, and a file a million records; the lines come before both.
#[test]
fn as_many_lines_as_there_may_be() {
    let prenote = "23,322070381,1,0.00,,A\r\n";
    let lines = prenote.repeat(1_000_001);
    let some = |count: usize| &lines[..count * prenote.len()];
    let table = imported(some(999_996)).expect("a million records are a file");
    assert_eq!(table.len(), 204 + 93 * 999_996);
    assert!(table.ends_with(b"322070380999996000000"));
    assert_eq!(refused(some(999_997)), (1, 0, 0));
    assert_eq!(refused(some(999_999)), (1, 0, 0));
    assert_eq!(refused(some(1_000_000)), (24, 0, 0));
    assert_eq!(refused(some(1_000_001)), (24, 0, 0));
    let last_is_none = format!("{}X", some(1_000_000));
    assert_eq!(refused(last_is_none), (29, 1_000_001, 0));
    let long_code = format!("{}222,,,1.00,,", some(1_000_000));
    assert_eq!(refused(long_code), (32, 1_000_001, 1));
}

#[test]
fn rooms() {
    let (file_row, batch_row) = rows();
    let lines = line(GOOD);
    let table = imported(&lines).unwrap();
    for room in [0, 1, 296, 297, 298, 1_000] {
        let import = |lines, lent: &mut [u8]| import_into(&file_row, &batch_row, lines, lent);
        check_room(room, &table, |lent| import(lines.as_bytes(), lent));
        let refusal = import(b"X", &mut vec![0; room]).map_err(parts);
        assert_eq!(refusal, Err((29, 1, 0)));
    }
    let lines = export(&table).unwrap();
    for room in [0, 1, lines.len() - 1, lines.len(), lines.len() + 1, 1_000] {
        check_room(room, &lines, |lent| export_into(&table, lent));
        let refusal = export_into(&table[1..], &mut vec![0; room]).map_err(parts);
        assert_eq!(refusal, Err((24, 0, 0)));
    }
}

fn exported(plan: &Plan) -> String {
    String::from_utf8(export(&plan.table()).unwrap()).unwrap()
}

#[test]
fn the_sample_as_lines() {
    assert_eq!(
        exported(&sample()),
        "\"22\",\"322070381\",\"4410-22871\",\"100.00\",\"E-1001\",\"MARLOWE, ADA\"\r\n\
         \"22\",\"322070381\",\"009831740\",\"25.50\",\"E-1002\",\"OKAFOR, BEN\"\r\n"
    );
}

#[test]
fn blanks_quotes_and_leading_zeros_of_an_export() {
    let of = |entry: Entry| exported(&plan_of(vec![entry]));
    let blank = Entry { identification: String::new(), ..good_entry() };
    assert_eq!(of(blank), "\"22\",\"322070381\",\"4410-22871\",\"100.00\",\"\",\"ADA\"\r\n");
    let quotes = Entry { name: "\"A\"  \" B,".into(), ..good_entry() };
    assert!(of(quotes).ends_with(",\"\"\"A\"\"  \"\" B,\"\r\n"));
    for (amount, text) in [
        (1, "0.01"),
        (10, "0.10"),
        (99, "0.99"),
        (100, "1.00"),
        (12_030, "120.30"),
        (9_999_999_999, "99999999.99"),
    ] {
        let line = of(Entry { amount, ..good_entry() });
        assert!(line.contains(&format!("\"4410-22871\",\"{text}\",\"E-1001\"")), "{line}");
    }
    let prenote = of(Entry { code: 23, amount: 0, ..good_entry() });
    assert!(prenote.contains(",\"0.00\","), "{prenote}");
}

/// The longest line has 132 bytes: every quote of identification and name is doubled.
#[test]
fn the_longest_line_of_an_export() {
    let longest = Entry {
        account: "-".repeat(17),
        amount: 9_999_999_999,
        identification: "\"".repeat(15),
        name: "\"".repeat(22),
        ..good_entry()
    };
    for count in 1..=5 {
        assert_eq!(exported(&plan_of(vec![longest.clone(); count])).len(), 132 * count);
    }
}

#[test]
fn exports_refusals_are_writings() {
    let mut table = sample().table();
    assert_eq!(export(b"").map_err(parts), Err((24, 0, 0)));
    assert_eq!(export(&table[..469]).map_err(parts), Err((24, 0, 0)));
    let amount = Sections::of(&table).rows[2].start + 30 - 2;
    table[amount] = b'X';
    assert_eq!(export(&table).map_err(parts), Err((6, 3, 6)));
}

/// Entries of all batches, in order, with addenda or without; imported again, the six fields are
/// those of the table.
#[test]
fn what_is_exported_is_imported_again() {
    let (file_row, mut batch_row) = rows();
    batch_row[..3].copy_from_slice(b"200");
    let mut random = Random::new(4);
    for _ in 0..500 {
        let plan = with_prenotes_for_remittances(plan(&mut random, 4, 6));
        let lines = exported(&plan);
        let table = import(&file_row, &batch_row, lines.as_bytes()).unwrap();
        assert_eq!(fields_of(&table), fields_of(&plan.table()));
        assert_eq!(export(&table).unwrap(), lines.as_bytes());
        assert!(check(Way::Plain, &write(Way::Plain, &table).unwrap()).is_ok());
    }
}

/// Columns 2 to 76 of every entry: the six fields of a line.
fn fields_of(table: &[u8]) -> Vec<Vec<u8>> {
    let entries = Sections::of(table).rows[2].clone();
    table[entries].chunks(93).map(|row| row[..75].to_vec()).collect()
}

/// A table that is a list's own comes back whole.
#[test]
fn a_lists_own_table_comes_back() {
    let mut random = Random::new(5);
    for _ in 0..200 {
        let mut random_plan = with_prenotes_for_remittances(plan(&mut random, 1, 6));
        let Batch { entries, .. } = random_plan.batches.remove(0);
        let mut plan = plan_of(entries);
        plan.batches[0].class = 200;
        let table = plan.table();
        let [header, batch, ..] = Sections::of(&table).rows;
        let lines = export(&table).unwrap();
        assert_eq!(import(&table[header], &table[batch], &lines), Ok(table));
    }
}
