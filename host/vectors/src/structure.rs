//! Lengths, the order of records, fillers, and what comes after them.

use crate::collection::Collection;
use generate::copies::{
    with_column, with_field, with_record_doubled, with_record_inserted, with_records_swapped,
    without_record,
};
use generate::{sample, Entry, Plan, RECORD};

pub fn collect(to: &mut Collection) {
    to.accepted("the sample", &sample());
    lengths(to);
    ends(to);
    types(to);
    fillers(to);
    blocks(to);
    first_fault_wins(to);
}

/// The sample with so many entries, alike but for their traces and without addenda.
fn with_entries(count: u32) -> Plan {
    let mut plan = sample();
    let entry = plan.batches[0].entries[0].clone();
    plan.batches[0].entries = (1..=count).map(|trace| Entry { trace, ..entry.clone() }).collect();
    plan
}

fn lengths(to: &mut Collection) {
    let file = sample().file();
    for length in [0, 1, 93, 95] {
        to.refused("no whole number of records", file[..length].to_vec(), (1, 0, 0));
    }
    let with_line_feed = [file.as_slice(), b"\n"].concat();
    to.refused("a line feed at the end", with_line_feed, (1, 0, 0));
}

fn ends(to: &mut Collection) {
    let file = sample().file();
    for records in 1..10 {
        let cut = file[..records * RECORD].to_vec();
        to.refused("the data end too early", cut, (2, records + 1, 0));
    }
    let eleven = with_entries(7).file();
    let cut = eleven[..19 * RECORD].to_vec();
    to.refused("the last filler missing", cut, (2, 20, 0));
}

fn types(to: &mut Collection) {
    let file = sample().file();
    let type_at = |record, byte| with_column(&file, record, 1, byte);
    to.refused("all blanks, a block", vec![b' '; 10 * RECORD], (3, 1, 1));
    to.refused("all nines, a block", vec![b'9'; 10 * RECORD], (3, 1, 1));
    to.refused("a batch first", without_record(&file, 1), (3, 1, 1));
    to.refused("an entry after the header", without_record(&file, 2), (3, 2, 1));
    to.refused("two file headers", with_record_doubled(&file, 1), (3, 2, 1));
    to.refused("an addendum before entries", with_records_swapped(&file, 3, 5), (3, 3, 1));
    let second_entry = &file[3 * RECORD..4 * RECORD];
    let not_due = with_record_inserted(&file, 4, &file[4 * RECORD..5 * RECORD]);
    to.refused("an addendum that is not due", not_due, (3, 4, 1));
    to.refused("an addendum missing before the control", without_record(&file, 5), (3, 5, 1));
    let overdue = with_record_inserted(&file, 5, second_entry);
    to.refused("an addendum missing before an entry", overdue, (3, 5, 1));
    to.refused("two addenda", with_record_doubled(&file, 5), (3, 6, 1));
    to.refused("no batch control", without_record(&file, 6), (3, 6, 1));
    to.refused("two batch controls", with_record_doubled(&file, 6), (3, 7, 1));
    to.refused("a type that is none", type_at(4, b'4'), (3, 4, 1));
    to.refused("a file header for the file control", type_at(7, b'1'), (3, 7, 1));
    let mut empty = sample();
    empty.batches[0].entries.clear();
    to.refused("an empty batch", empty.file(), (3, 3, 1));
    empty.batches.clear();
    to.refused("no batch", empty.file(), (3, 2, 1));
    to.refused("a filler in place of the file control", without_record(&file, 7), (18, 7, 2));
}

fn fillers(to: &mut Collection) {
    let file = sample().file();
    for (about, record, column, byte) in [
        ("a filler's first column", 8, 1, b'6'),
        ("a filler's second column", 9, 2, b'0'),
        ("a filler's last column", 10, RECORD, b' '),
    ] {
        to.refused(about, with_column(&file, record, column, byte), (5, record, 0));
    }
    let control = &file[6 * RECORD..7 * RECORD];
    let second_control = with_record_inserted(&without_record(&file, 8), 8, control);
    to.refused("a second file control", second_control, (5, 8, 0));
    let wrong = with_column(&file, 8, 50, b'8');
    let cut = wrong[..9 * RECORD].to_vec();
    to.refused("a wrong filler before a missing one", cut, (5, 8, 0));
    let longer = with_record_doubled(&wrong, 10);
    to.refused("a wrong filler before a record too many", longer, (5, 8, 0));
    for (about, record) in
        [("a filler too many", [b'9'; RECORD]), ("a blank record after the block", [b' '; RECORD])]
    {
        to.refused(about, [file.as_slice(), &record].concat(), (4, 11, 0));
    }
    let twice = [file.as_slice(), &file].concat();
    to.refused("a second file after the first", twice, (4, 11, 0));
}

fn blocks(to: &mut Collection) {
    to.accepted("seven records and three fillers", &with_entries(3));
    to.accepted("ten records and no filler", &with_entries(6));
    to.accepted("eleven records and nine fillers", &with_entries(7));
    to.accepted("equal entries are entries of their own", &with_entries(2));
    to.accepted("the longest file looked at", &with_entries(686));
    let ten = with_entries(6).file();
    let one_block = with_field(&with_entries(7).file(), 11, 3, "000001");
    to.refused("blocks counted without the fillers", one_block, (18, 11, 3));
    let fractional = with_field(&ten, 10, 3, "000002");
    to.refused("a block more than there are", fractional, (18, 10, 3));
}

fn first_fault_wins(to: &mut Collection) {
    let file = sample().file();
    let two_fields = with_field(&with_field(&file, 3, 2, "25"), 3, 4, "A");
    to.refused("field 2 before field 4, though 11 is more than 6", two_fields, (11, 3, 2));
    let two_records = with_field(&with_field(&file, 2, 13, "0000000"), 3, 2, "2A");
    to.refused("record 2 before record 3, though 17 is more than 6", two_records, (17, 2, 13));
    let cut = with_field(&file[..3 * RECORD], 3, 11, "322070380000000");
    to.refused("the record there before the one missing", cut, (16, 3, 11));
    let type_first = with_field(&with_column(&file, 3, 1, b'2'), 4, 2, "99");
    to.refused("the type before the record behind it", type_first, (3, 3, 1));
}
