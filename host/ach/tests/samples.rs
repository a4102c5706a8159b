//! The proved library on every sample: the line that the index has, and the tables both ways.

mod common;

use ach::Way;
use common::in_both_ways;
use samples::Mending;

/// Both indexes: the way of a file, its name, and its line.
fn indexes() -> Vec<(Way, &'static str, &'static str)> {
    let plain = samples::index().into_iter().map(|(name, line)| (Way::Plain, name, line));
    let lined = samples::lined_index().into_iter().map(|(name, line)| (Way::Lined, name, line));
    plain.chain(lined).collect()
}

#[test]
fn every_sample_has_its_line() {
    let files = samples::by_name();
    for (way, name, expected) in indexes() {
        assert_eq!(ach::line(&ach::check(way, &files[name])), expected, "{name}");
    }
}

#[test]
fn every_table_is_its_files() {
    let files = samples::by_name();
    let tables: Vec<&String> = files.keys().filter(|name| name.ends_with(".table")).collect();
    assert_eq!(tables.len(), 15);
    for name in tables {
        let (table, plain) = (&files[name], &files[&name.replace(".table", ".ach")]);
        for (way, file) in in_both_ways(plain) {
            assert_eq!(ach::file_of(way, table).as_ref(), Ok(&file), "{name}");
            assert_eq!(ach::table_of(way, &file).as_ref(), Ok(table), "{name}");
        }
    }
}

/// The line of a list is that of the file which its table is written to, or that of its refusal.
#[test]
fn every_list_has_its_line() {
    let files = samples::by_name();
    let (file_row, batch_row) = (&files["team.file-row"], &files["team.batch-row"]);
    for (name, expected) in samples::list_index() {
        let held = ach::import(file_row, batch_row, &files[name])
            .and_then(|table| ach::file_of(Way::Plain, &table))
            .and_then(|file| ach::check(Way::Plain, &file));
        assert_eq!(ach::line(&held), expected, "{name}");
    }
}

#[test]
fn every_refused_sample_is_mended_or_not() {
    let files = samples::by_name();
    for (name, due) in samples::mended_index() {
        let way = if name.ends_with("-lined.ach") { Way::Lined } else { Way::Plain };
        match (ach::mend(way, &files[name]), due) {
            (Ok(given), Mending::Cured { file, changes }) => {
                assert!(given.file == files[file], "{name}");
                assert_eq!(given.list, changes.as_bytes(), "{name}");
            }
            (Err(refusal), Mending::Refused { line }) => {
                assert_eq!(ach::line(&Err(refusal)), line, "{name}");
            }
            (given, _) => panic!("{name}: {:?}", given.map(|given| given.list)),
        }
    }
}

/// Refused, a file gives no table, whatever is asked of it.
#[test]
fn a_refusal_is_the_same_from_every_function() {
    let files = samples::by_name();
    for (way, name, line) in indexes().into_iter().filter(|(.., line)| line.starts_with("NO ")) {
        let file = &files[name];
        let refusal = ach::check(way, file).unwrap_err();
        let mut lent = file.clone();
        assert_eq!(ach::line(&Err(refusal)), line, "{name}");
        assert_eq!(ach::table_of(way, file), Err(refusal), "{name}");
        assert_eq!(ach::check_into(way, file, &mut []), Err(refusal), "{name}");
        assert_eq!(ach::alter(way, &mut lent, &mut [], 1, 1), Err(refusal), "{name}");
        assert_eq!(ach::take_out(way, &mut lent, &[1], &mut []), Err(refusal), "{name}");
        assert_eq!(ach::addendum(way, file, 1), Err(refusal), "{name}");
        assert_eq!(&lent, file, "{name}");
    }
}
