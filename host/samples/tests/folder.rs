//! The folder holds what it should, and the independent implementation says what the index says.

use independent::Way;
use samples::Mending;
use std::collections::{BTreeMap, BTreeSet};
use std::fs;
use std::path::Path;

const FOLDER: &str = concat!(env!("CARGO_MANIFEST_DIR"), "/../../samples");

fn content(name: &str) -> Vec<u8> {
    fs::read(Path::new(FOLDER).join(name)).unwrap_or_else(|error| panic!("{name}: {error}"))
}

fn names_in(folder: &str) -> BTreeSet<String> {
    let entries = fs::read_dir(Path::new(FOLDER).join(folder)).unwrap();
    let names = entries.map(|entry| entry.unwrap().file_name().into_string().unwrap());
    names.map(|name| format!("{folder}{name}")).collect()
}

#[test]
fn the_files_are_as_they_were_made() {
    for sample in samples::all() {
        assert!(content(&sample.name) == sample.bytes, "{}", sample.name);
    }
}

#[test]
fn every_file_is_known() {
    let mut there = names_in("");
    there.extend(names_in("refused/"));
    let said = ["index", "index-lined", "index-lists", "index-funds", "index-mended"];
    for other in said.into_iter().chain(["README.md", "refused"]) {
        assert!(there.remove(other), "{other}");
    }
    let made: BTreeSet<String> = samples::all().into_iter().map(|sample| sample.name).collect();
    assert_eq!(there, made);
    let files = indexes().into_iter().map(|(_, name, _)| name);
    let lists = samples::list_index().into_iter().map(|(name, _)| name);
    let mut listed: Vec<&str> = files.chain(lists).collect();
    listed.sort();
    let is_listed = |name: &&str| name.ends_with(".ach") || name.ends_with(".csv");
    assert_eq!(made.iter().map(String::as_str).filter(is_listed).collect::<Vec<_>>(), listed);
}

/// Both indexes: the way of a file, its name, and its line.
fn indexes() -> Vec<(Way, &'static str, &'static str)> {
    let plain = samples::index().into_iter().map(|(name, line)| (Way::Plain, name, line));
    let lined = samples::lined_index().into_iter().map(|(name, line)| (Way::Lined, name, line));
    plain.chain(lined).collect()
}

#[test]
fn every_file_has_its_line() {
    for (way, name, line) in indexes() {
        let said = independent::line(&independent::check(way, &content(name)));
        assert_eq!(said, line, "{name}");
        assert_eq!(way == Way::Lined, name.ends_with("-lined.ach"), "{name}");
        assert_eq!(line.starts_with("NO "), name.starts_with("refused/"), "{name}");
    }
}

#[test]
fn every_list_has_its_line() {
    let (file_row, batch_row) = (content("team.file-row"), content("team.batch-row"));
    for (name, line) in samples::list_index() {
        let table = independent::import(&file_row, &batch_row, &content(name));
        let held = table.and_then(|table| {
            let file = independent::write(Way::Plain, &table)?;
            independent::check(Way::Plain, &file)
        });
        assert_eq!(independent::line(&held), line, "{name}");
        assert_eq!(line.starts_with("NO "), name.starts_with("refused/"), "{name}");
    }
}

#[test]
fn every_limit_has_its_line() {
    for (name, limit, line) in samples::funds_index() {
        let cents = limit.replace('.', "").parse().unwrap();
        let rows = independent::rows_of(Way::Plain, &content(name));
        let said = match rows.map(|rows| independent::runs_out(&rows, cents)) {
            Ok(answer) => {
                let (record, credits) = answer.found.unwrap_or_default();
                format!("OK {} {record} {credits}", answer.rows)
            }
            Err(refusal) => independent::line(&Err(refusal)),
        };
        assert_eq!(said, line, "{name} {limit}");
    }
}

/// Every refused file is there, and what mending makes of it lies in the folder too.
#[test]
fn every_refused_file_is_mended_or_not() {
    let refused = indexes().into_iter().filter(|(.., line)| line.starts_with("NO "));
    let ways: BTreeMap<&str, Way> = refused.map(|(way, name, _)| (name, way)).collect();
    let mended = samples::mended_index();
    let names: BTreeSet<&str> = mended.iter().map(|(name, _)| *name).collect();
    assert_eq!(names, ways.keys().copied().collect());
    for (name, due) in mended {
        let given = independent::mend(ways[name], &content(name));
        match (given, due) {
            (Ok(given), Mending::Cured { file, changes }) => {
                assert!(given.file == content(file), "{name}");
                assert_eq!(String::from_utf8_lossy(&given.changes), changes, "{name}");
            }
            (Err(refusal), Mending::Refused { line }) => {
                assert_eq!(independent::line(&Err(refusal)), line, "{name}");
            }
            (given, _) => panic!("{name}: {:?}", given.map(|given| given.changes)),
        }
    }
}

/// Credits grow with some batches and not with others, and batch numbers are left out.
#[test]
fn credits_that_grow_in_steps() {
    let file = content("prefunded.ach");
    let controls = || file.chunks(94).filter(|record| record[0] == b'8');
    let credits: Vec<&[u8]> = controls().map(|control| &control[32..44]).collect();
    assert_eq!(
        credits,
        [b"000000350000", b"000000000000", b"000000000000", b"000000125025", b"000000052475"]
    );
    let numbers: Vec<&[u8]> = controls().map(|control| &control[93..]).collect();
    assert_eq!(numbers, [b"3", b"4", b"7", b"8", b"9"]);
}

/// The list gives the table, and the table's own list gives it again.
#[test]
fn the_list_and_its_table() {
    let (file_row, batch_row) = (content("team.file-row"), content("team.batch-row"));
    let (list, table) = (content("team.csv"), content("team.table"));
    assert_eq!((file_row.len(), batch_row.len()), (85, 95));
    assert!(batch_row.ends_with(b"000000"));
    assert_eq!(independent::import(&file_row, &batch_row, &list).as_ref(), Ok(&table));
    let exported = independent::export(&table).unwrap();
    assert_ne!(exported, list);
    assert!(exported.ends_with(b"\"70-000004\",\"12.50\",\"\",\"DE LUCA ELENA\"\r\n"));
    assert_eq!(independent::import(&file_row, &batch_row, &exported), Ok(table));
}

/// The same records as in their twins, two bytes more for each; in the other way it is refused.
#[test]
fn the_lined_samples_are_others_with_line_ends() {
    for (name, records) in [("whole", 10), ("gaps", 20), ("union", 10)] {
        let (file, twin) = (content(&format!("{name}-lined.ach")), content(&format!("{name}.ach")));
        assert_eq!((file.len(), twin.len()), (96 * records, 94 * records));
        for (line, record) in file.chunks(96).zip(twin.chunks(94)) {
            assert_eq!((&line[..94], &line[94..]), (record, b"\r\n".as_slice()));
        }
    }
    assert_eq!(content("whole-lined.ach"), content("refused/line-ends.ach"));
}

/// Numbers are missing in each batch, and the second has one that the first has too.
#[test]
fn traces_are_left_out() {
    let file = content("gaps.ach");
    let traces: Vec<&[u8]> = entries(&file).iter().map(|entry| &entry[87..]).collect();
    assert_eq!(traces, [b"0000001", b"0000002", b"0000004", b"0000007", b"0000002", b"0000004"]);
    let twice = content("refused/trace-twice.ach");
    let traces: Vec<&[u8]> = entries(&twice).iter().map(|entry| &entry[79..]).collect();
    assert_eq!(traces, [b"322070380000001"; 2]);
}

/// Among digits and hyphens, alone, and in all columns.
#[test]
fn letters_stand_in_accounts() {
    let file = content("union.ach");
    let accounts: Vec<&[u8]> = entries(&file).iter().map(|entry| &entry[12..29]).collect();
    assert_eq!(accounts, [b"CU-7K2B          ", b"SAVINGS          ", b"M0ABCDEFGHIJKLXYZ"]);
}

/// Every zero-dollar code is there, with nothing to pay and a text behind it; in the refused files
/// one of these is missing, or the entry class.
#[test]
fn remittances_carry_text_alone() {
    let file = content("remittances.ach");
    let records: Vec<&[u8]> = file.chunks(94).collect();
    let is_remittance = |code: &[u8]| [b"24", b"29", b"34", b"39"].iter().any(|one| *one == code);
    let pairs =
        records.windows(2).filter(|pair| pair[0][0] == b'6' && is_remittance(&pair[0][1..3]));
    let codes: Vec<&[u8]> = pairs
        .map(|pair| {
            assert_eq!(
                (&pair[0][29..39], pair[0][78], pair[1][0]),
                (b"0000000000".as_slice(), b'1', b'7')
            );
            assert_ne!(pair[1][3..83], [b' '; 80]);
            &pair[0][1..3]
        })
        .collect();
    assert_eq!(codes, [b"24", b"24", b"34", b"29", b"39"]);
    assert_eq!(&records[1][50..53], b"CCD");
    let ppd = content("refused/remittance-ppd.ach");
    assert_eq!(ppd.iter().zip(&file).filter(|(new, old)| new != old).count(), 2);
    assert_eq!(content("refused/remittance-bare.ach")[4 * 94 + 78], b'0');
}

fn entries(file: &[u8]) -> Vec<&[u8]> {
    file.chunks(94).filter(|record| record[0] == b'6').collect()
}

/// Whoever earns exactly 2,000.00 is in the file, and so are those just below and just above.
#[test]
fn all_eleven_are_in_the_file() {
    let file = content("eleven.ach");
    let paid: Vec<&[u8]> = entries(&file).iter().map(|entry| &entry[29..39]).collect();
    let count = |amount: &[u8]| paid.iter().filter(|paid| **paid == amount).count();
    assert_eq!(paid.len(), 30);
    assert_eq!(count(b"0000200000"), 11);
    assert_eq!(paid.iter().filter(|paid| **paid < b"0000200000").count(), 10);
    assert_eq!(paid.iter().filter(|paid| **paid > b"0000200000").count(), 9);
    assert_eq!((count(b"0000199999"), count(b"0000200001")), (1, 1));

    let table = content("eleven.table");
    let rows = &table[6 + 85 + 6 + 2 * 95 + 6..][..30 * 93];
    let in_table = rows.chunks(93).filter(|row| &row[28..38] == b"0000200000").count();
    assert_eq!(in_table, 11);
}

/// Two of the eleven differ in their trace number alone.
#[test]
fn equal_entries_are_two() {
    let file = content("eleven.ach");
    let entries = entries(&file);
    assert_eq!(entries[27][..79], entries[29][..79]);
    assert_ne!(entries[27], entries[29]);
}

/// What the documents print, where they print what is right.
#[test]
fn hashes_are_those_of_the_documents() {
    for (name, hash) in
        [("pension.ach", "0026500105"), ("loans.ach", "0112345251"), ("taxes.ach", "0064414076")]
    {
        let file = content(name);
        let control = file.chunks(94).find(|record| record[0] == b'8').unwrap();
        assert_eq!(&control[10..20], hash.as_bytes(), "{name}");
    }
    let file = content("loans.ach");
    let control = file.chunks(94).find(|record| record[0] == b'8').unwrap();
    assert_eq!(&control[4..54], b"00001201123452510000000000000000004600009453233319");
}
