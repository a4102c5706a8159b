//! Files with CR LF behind every record: where its lack is refused, and what comes before it.

use crate::collection::{accepting_line, Collection};
use generate::copies::{with_column, with_field};
use generate::lines::{lined, with_end, LINED_RECORD, WRONG_ENDS};
use generate::{near_limit, sample, Batch, Entry, Plan};

pub fn collect(to: &mut Collection) {
    accepted(to, "the sample with line ends", &sample());
    lengths(to);
    each_record(to);
    second_batch(to);
    behind_the_fields(to);
    before_the_next_record(to);
    ends_of_data(to);
    fillers(to);
    blocks(to);
    moved(to);
}

fn accepted(to: &mut Collection, about: &str, plan: &Plan) {
    to.add(about, plan.lined_file(), accepting_line(plan));
}

fn whole() -> Vec<u8> {
    sample().lined_file()
}

fn lengths(to: &mut Collection) {
    let file = whole();
    for length in [0, 1, 94, 95, 97, 192 + 94] {
        let cut = file[..length].to_vec();
        to.refused("no whole number of records with line ends", cut, (1, 0, 0));
    }
    to.refused("the last CR LF missing", file[..958].to_vec(), (1, 0, 0));
    to.refused("the last LF missing", file[..959].to_vec(), (1, 0, 0));
    to.refused("a line end too many", [&file, b"\r\n".as_slice()].concat(), (1, 0, 0));
    to.refused("no line ends", sample().file(), (1, 0, 0));
    let unix = file.iter().copied().filter(|byte| *byte != b'\r').collect();
    to.refused("LF alone behind every record", unix, (1, 0, 0));
}

/// Every record of the sample, so every record type and each filler, has its line end spoiled.
fn each_record(to: &mut Collection) {
    let file = whole();
    for (record, other) in (1..=10).zip(WRONG_ENDS.into_iter().skip(1)) {
        for end in [b"\n\r", b"\r ", b" \n", other] {
            let about = format!("record {record} ends with {end:?}");
            to.refused(&about, with_end(&file, record, end), (26, record, 0));
        }
    }
    let two = with_end(&with_end(&file, 7, b"  "), 4, b"\r\r");
    to.refused("two wrong line ends: the first", two, (26, 4, 0));
    let none = file.chunks(LINED_RECORD).flat_map(|record| [&record[..94], b"  "].concat());
    to.refused("blanks for all line ends", none.collect(), (26, 1, 0));
}

fn second_batch(to: &mut Collection) {
    let mut plan = sample();
    plan.batches.push(Batch { number: 2, ..plan.batches[0].clone() });
    accepted(to, "two batches with line ends", &plan);
    let file = plan.lined_file();
    for record in 7..=20 {
        let about = format!("record {record} of a file with two batches ends with LF CR");
        to.refused(&about, with_end(&file, record, b"\n\r"), (26, record, 0));
    }
}

/// A fault in the last field of every record type, or in its first, and no line end behind it.
fn behind_the_fields(to: &mut Collection) {
    let file = sample().file();
    for (record, field, text, number) in [
        (1, 13, " X      ", 9),
        (2, 13, "0000000", 17),
        (3, 11, "322070380000000", 16),
        (4, 11, "32207038000000A", 6),
        (5, 5, "0000001", 16),
        (6, 11, "0000002", 22),
        (7, 8, "                                      9", 5),
    ] {
        let fault = lined(&with_field(&file, record, field, text));
        let about = format!("record {record} field {field} before its line end");
        to.refused(&about, with_end(&fault, record, b"\n\r"), (number, record, field));
        let about = format!("record {record} field {field} before the next line end");
        to.refused(&about, with_end(&fault, record + 1, b"\n\r"), (number, record, field));
        let fault = lined(&with_column(&file, record, 1, b'4'));
        let about = format!("the type of record {record} before its line end");
        to.refused(&about, with_end(&fault, record, b"\n\r"), (3, record, 1));
    }
    let too_much = near_limit(22, 1_000_000_000_000, 1).lined_file();
    to.refused(
        "a sum too large before a line end",
        with_end(&too_much, 104, b"\r\r"),
        (20, 104, 6),
    );
}

fn before_the_next_record(to: &mut Collection) {
    let file = sample().file();
    for record in 1..=6 {
        let next = lined(&with_column(&file, record + 1, 1, b'4'));
        let about = format!("the line end of record {record} before the next type");
        to.refused(&about, with_end(&next, record, b"\r\r"), (26, record, 0));
        let next = lined(&with_column(&file, record + 1, 2, b'X'));
        let about = format!("the line end of record {record} before the next field");
        to.refused(&about, with_end(&next, record, b"\r\r"), (26, record, 0));
    }
}

fn ends_of_data(to: &mut Collection) {
    let file = whole();
    for records in 1..=9 {
        let cut = &file[..records * LINED_RECORD];
        to.refused("the data end too early", cut.to_vec(), (2, records + 1, 0));
        let about = format!("the line end of record {records} before the end of the data");
        to.refused(&about, with_end(cut, records, b"\n\n"), (26, records, 0));
    }
}

fn fillers(to: &mut Collection) {
    let file = whole();
    for (record, column) in [(8, 1), (9, 50), (10, 94)] {
        let wrong = lined(&with_column(&sample().file(), record, column, b' '));
        to.refused("a wrong filler", wrong.clone(), (5, record, 0));
        let both = with_end(&wrong, record, b"  ");
        to.refused("a filler before its line end", both, (5, record, 0));
        let before = with_end(&wrong, record - 1, b"  ");
        to.refused("a line end before the filler behind it", before, (26, record - 1, 0));
    }
    to.refused("a filler of 96 nines", with_end(&file, 9, b"99"), (26, 9, 0));
    for record in [&file[..LINED_RECORD], &file[9 * LINED_RECORD..], &[b' '; LINED_RECORD]] {
        let longer = [&file, record].concat();
        to.refused("a record behind the block", longer.clone(), (4, 11, 0));
        let about = "a record behind the block, whatever its line end";
        to.refused(about, with_end(&longer, 11, b"\n\r"), (4, 11, 0));
        let about = "a line end before a record behind the block";
        to.refused(about, with_end(&longer, 10, b"\n\r"), (26, 10, 0));
    }
}

/// Blocks are ten records in both ways.
fn blocks(to: &mut Collection) {
    for (entries, records) in [(3, 7), (6, 10), (7, 11)] {
        let mut plan = sample();
        let entry = plan.batches[0].entries[0].clone();
        plan.batches[0].entries =
            (1..=entries).map(|trace| Entry { trace, ..entry.clone() }).collect();
        accepted(to, &format!("{records} records with line ends"), &plan);
        let file = plan.lined_file();
        let about = format!("the control, record {records}, ends with a blank and LF");
        to.refused(&about, with_end(&file, records, b" \n"), (26, records, 0));
        let last = file.len() / LINED_RECORD;
        let about = format!("the last of {last} records ends with CR alone");
        to.refused(&about, with_end(&file, last, b"\r9"), (26, last, 0));
    }
    let says_96 = lined(&with_field(&sample().file(), 1, 8, "096"));
    to.refused("a record size of 096", says_96, (5, 1, 8));
}

/// A line end too short or too long, with the length made right at the end of the file.
fn moved(to: &mut Collection) {
    let file = whole();
    for (record, end, refusal) in [
        (1, b"\n".as_slice(), (26, 1, 0)),
        (4, b"\r", (26, 4, 0)),
        (3, b"", (26, 3, 0)),
        (1, b"\r\n\n", (3, 2, 1)),
        (5, b"\r\n\r\n", (3, 6, 1)),
        (7, b"\r\n ", (5, 8, 0)),
        (6, b"\r\r\n", (26, 6, 0)),
    ] {
        let mut changed = with_end(&file, record, end);
        changed.resize(file.len(), b'9');
        to.refused(&format!("record {record} ends with {end:?}, 960 bytes"), changed, refusal);
    }
}
