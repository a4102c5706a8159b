//! Client lists: the same table of a list and the same list of a table, in rooms of every size,
//! and what is lent for reading as it was.

use crate::rooms::{around, in_room};
use crate::run::Run;
use crate::tally::Tally;
use ach::boundary::{ach_export, ach_import};
use generate::damage::BORDER_BYTES;
use generate::lists::{
    fields_of, list_of, quoted, random_field_damage, random_list_damage, replaced, rows_of,
    spelled, Fields, List, AMOUNT, AMOUNTS, PIECES, WIDTHS,
};
use generate::remittances::with_prenotes_for_remittances;
use generate::tables::{random_row_damage, shape_damage, Sections, ENTRY_ROW};
use generate::{is_payment, near_limit, plan, sample, Entry, Plan, Random};
use independent::Refusal;

const DEFAULT_CASES: u64 = 20_000;

pub fn compare(run: &Run, tally: &mut Tally) {
    let cases = run.cases.unwrap_or(DEFAULT_CASES);
    let mut random = Random::new(run.seed);
    no_bytes(tally);
    for base in bases(&mut random) {
        every_cut(tally, &base);
        every_byte(tally, &base);
        every_piece(tally, &base);
        every_row(tally, &base);
    }
    amounts(tally);
    widths(tally);
    two_faults(tally);
    limits(tally);
    random_lists(tally, &mut random, cases);
    random_exports(tally, &mut random, cases);
}

/// Lists of about a million lines, which take too long for every day.
pub fn compare_longest(_: &Run, tally: &mut Tally) {
    let (file_row, batch_row) = rows_of(&sample(), 0);
    let line = b"23,322070381,1,0.00,,A\r\n";
    let mut list = List { file_row, batch_row, lines: line.repeat(1_000_001) };
    let all = list.lines.clone();
    for count in [999_995, 999_996, 999_997, 999_999, 1_000_000, 1_000_001] {
        list.lines = all[..count * line.len()].to_vec();
        import(tally, &format!("{count} lines"), &list);
        list.lines.extend_from_slice(b"X");
        import(tally, &format!("{count} lines and one that is none"), &list);
    }
    list.lines = all[..999_996 * line.len()].to_vec();
    let parts = (&list.file_row, &list.batch_row, &list.lines);
    let table = independent::import(parts.0, parts.1, parts.2).expect("a million records");
    export(tally, "999996 lines", &table);
}

/// Imports a list in all rooms, and sees that it was only read.
fn import(tally: &mut Tally, about: &str, list: &List) {
    let List { file_row, batch_row, lines } = list.clone();
    let result = independent::import(&file_row, &batch_row, &lines);
    for room in around(&result, 2 * lines.len() + 2_000) {
        let result = result.as_deref().map_err(|refusal: &Refusal| *refusal);
        in_room(tally, about, &lines, result, room, |space, size, length| {
            let (first, second, third) = (&file_row, &batch_row, &lines);
            // SAFETY: every pointer is to as many bytes as the length behind it says, and apart.
            unsafe {
                ach_import(
                    first.as_ptr(),
                    first.len(),
                    second.as_ptr(),
                    second.len(),
                    third.as_ptr(),
                    third.len(),
                    space,
                    size,
                    length,
                )
            }
        });
    }
    let kept = (&file_row, &batch_row, &lines) == (&list.file_row, &list.batch_row, &list.lines);
    tally.holds("what is imported is only read", &list.lines, kept);
}

/// Exports a table in all rooms, and sees that it was only read.
fn export(tally: &mut Tally, about: &str, table: &[u8]) {
    let lent = table.to_vec();
    let result = independent::export(&lent);
    for room in around(&result, 2 * lent.len() + 2_000) {
        let result = result.as_deref().map_err(|refusal: &Refusal| *refusal);
        in_room(tally, about, &lent, result, room, |space, size, length| {
            // SAFETY: as for an import.
            unsafe { ach_export(lent.as_ptr(), lent.len(), space, size, length) }
        });
    }
    tally.holds("what is exported is only read", table, lent == table);
}

fn no_bytes(tally: &mut Tally) {
    let shape = Refusal { number: 24, record: 0, field: 0 };
    let (none, nowhere) = (std::ptr::null(), std::ptr::null_mut());
    in_room(tally, "null pointers", b"", Err(shape), 0, |_, _, length| {
        // SAFETY: of no bytes none is read or written, so the pointers to them may be null.
        unsafe { ach_import(none, 0, none, 0, none, 0, nowhere, 0, length) }
    });
    in_room(tally, "null pointers", b"", Err(shape), 0, |_, _, length| {
        // SAFETY: as before.
        unsafe { ach_export(none, 0, nowhere, 0, length) }
    });
    let (file_row, batch_row) = rows_of(&sample(), 0);
    import(tally, "no lines", &List { file_row, batch_row, lines: Vec::new() });
}

/// Small lists whose bytes are damaged one by one.
fn bases(random: &mut Random) -> Vec<List> {
    let (file_row, batch_row) = rows_of(&sample(), 0);
    let with = |lines: &[u8]| {
        let (file_row, batch_row) = (file_row.clone(), batch_row.clone());
        List { file_row, batch_row, lines: lines.to_vec() }
    };
    let mut lists = vec![
        with(b"22,322070381,4410-22871,100.00,E-1001,ADA\r\n32,053000219,7,0.01,,\"B, \"\"C\"\"\""),
        with(b"\"22\",\"322070381\",\"7\",\"1.00\",\"\",\"A\r\nB\"\r\n22,322070381,7,1.00,,A\r\n"),
    ];
    lists.extend((0..3).map(|_| {
        let plan = with_prenotes_for_remittances(plan(random, 1, 2));
        list_of(random, &plan, 0)
    }));
    lists
}

fn with_lines(base: &List, lines: Vec<u8>) -> List {
    List { lines, ..base.clone() }
}

fn every_cut(tally: &mut Tally, base: &List) {
    for place in 0..=base.lines.len() {
        let (front, back) = base.lines.split_at(place);
        import(tally, "the front of a list", &with_lines(base, front.to_vec()));
        import(tally, "the back of a list", &with_lines(base, back.to_vec()));
    }
}

fn every_byte(tally: &mut Tally, base: &List) {
    let mut list = base.clone();
    for place in 0..base.lines.len() {
        for byte in 0..=255 {
            list.lines[place] = byte;
            import(tally, "a byte of a list", &list);
        }
        list.lines[place] = base.lines[place];
    }
}

/// Every byte taken out, and pieces put in before it or in its place.
fn every_piece(tally: &mut Tally, base: &List) {
    for place in 0..=base.lines.len() {
        let byte = place..(place + 1).min(base.lines.len());
        let mut try_one = |about, part, piece: &[u8]| {
            let lines = replaced(&base.lines, part, piece);
            import(tally, about, &with_lines(base, lines));
        };
        try_one("a byte less", byte.clone(), b"");
        for piece in PIECES {
            try_one("a piece more", place..place, piece);
            try_one("another piece", byte.clone(), piece);
        }
    }
}

/// Rows of every length, and with every byte on both sides of a rule; with lines in order, with a
/// line that is none, and without lines.
fn every_row(tally: &mut Tally, base: &List) {
    let lists = [b"".as_slice(), b"X", &base.lines].map(|lines| with_lines(base, lines.to_vec()));
    for mut list in lists {
        for length in 0..=200 {
            let long = base.file_row.repeat(3);
            list.file_row = long[..length].to_vec();
            import(tally, "the length of the file row", &list);
            list.file_row.clone_from(&base.file_row);
            list.batch_row = base.batch_row.repeat(3)[..length].to_vec();
            import(tally, "the length of the batch row", &list);
            list.file_row = long[..length].to_vec();
            import(tally, "the length of both rows", &list);
            list = List { lines: list.lines, ..base.clone() };
        }
    }
    let mut list = base.clone();
    for byte in BORDER_BYTES {
        for place in 0..base.file_row.len() {
            list.file_row[place] = byte;
            import(tally, "a byte of the file row", &list);
            list.file_row[place] = base.file_row[place];
        }
        for place in 0..base.batch_row.len() {
            list.batch_row[place] = byte;
            import(tally, "a byte of the batch row", &list);
            list.batch_row[place] = base.batch_row[place];
        }
    }
}

/// A list of two lines that are in order.
fn two_lines() -> (List, [Fields; 2]) {
    let (file_row, mut batch_row) = rows_of(&sample(), 0);
    batch_row[..3].copy_from_slice(b"200");
    let entries = &sample().batches[0].entries;
    let fields = [fields_of(&entries[0]), fields_of(&entries[1])];
    (List { file_row, batch_row, lines: Vec::new() }, fields)
}

/// The lines of fields as they are, without any quotes but those in them.
fn as_they_are(lines: &[Fields]) -> Vec<u8> {
    let lines: Vec<Vec<u8>> = lines.iter().map(|fields| fields.join(b",".as_slice())).collect();
    lines.join(b"\r\n".as_slice())
}

/// Puts a text into one field of one of two lines, without quotes and with them.
fn in_every_form(tally: &mut Tally, about: &str, line: usize, field: usize, text: &[u8]) {
    let (mut list, mut lines) = two_lines();
    // Quotes around all names, so that what they hold does not end them.
    for fields in &mut lines {
        fields[5] = quoted(&fields[5]);
    }
    for spelled in [text.to_vec(), quoted(text)] {
        lines[line][field] = spelled;
        list.lines = as_they_are(&lines);
        import(tally, about, &list);
    }
}

fn amounts(tally: &mut Tally) {
    for line in [0, 1] {
        for text in AMOUNTS {
            in_every_form(tally, text, line, AMOUNT, text.as_bytes());
        }
        for zeros in 0..100 {
            for digits in ["0.00", "0.01", "9.99", "99999999.99", "100000000.00"] {
                let text = format!("{}{digits}", "0".repeat(zeros));
                in_every_form(tally, &text, line, AMOUNT, text.as_bytes());
            }
            let text = format!("{}.00", "9".repeat(zeros));
            in_every_form(tally, &text, line, AMOUNT, text.as_bytes());
        }
    }
}

fn widths(tally: &mut Tally) {
    for (field, width) in WIDTHS.into_iter().enumerate() {
        for length in [0, 1, width - 1, width, width + 1, width + 2, 2 * width, 1_000] {
            for byte in [b' ', b'"', b',', b'-', b'0', b'7', b'A', b'a', b'\r', b'\n'] {
                for line in [0, 1] {
                    let about = format!("field {} of length {length}", field + 1);
                    in_every_form(tally, &about, line, field, &vec![byte; length]);
                }
            }
        }
    }
}

/// Two faults at a time: which comes first, by line and by field.
fn two_faults(tally: &mut Tally) {
    let faults: [&[u8]; 7] =
        [b"1234567890123456789012345", b"1.5", b"", b"A\"", b"\"A\"B", b"A\tB", b"1,2"];
    let places: Vec<(usize, usize)> =
        (0..2).flat_map(|line| (0..6).map(move |field| (line, field))).collect();
    let (mut list, good) = two_lines();
    for &(line, field) in &places {
        for &(other_line, other_field) in &places {
            for fault in faults {
                for other in faults {
                    let mut lines = good.clone().map(|fields| fields.map(|field| quoted(&field)));
                    lines[line][field] = fault.to_vec();
                    lines[other_line][other_field] = other.to_vec();
                    list.lines = as_they_are(&lines);
                    import(tally, "two faults", &list);
                }
            }
        }
    }
}

/// Totals at their limit, in a list and in a table.
fn limits(tally: &mut Tally) {
    let mut random = Random::new(1);
    for code in [22, 27, 32, 37] {
        for total in [999_999_999_900, 999_999_999_999, 1_000_000_000_000, 1_009_999_999_899] {
            let plan = near_limit(code, total, 1);
            import(tally, "a total near its limit", &list_of(&mut random, &plan, 0));
            export(tally, "a total near its limit", &plan.table());
        }
    }
}

/// Lists in order, lists of which fields were changed, and lists of which bytes were.
fn random_lists(tally: &mut Tally, random: &mut Random, cases: u64) {
    for case in 0..cases {
        let most_entries = if case % 50 == 0 { 60 } else { 5 };
        let mut plan = plan(random, 2, most_entries);
        if !random.one_in(4) {
            plan = with_prenotes_for_remittances(plan);
        }
        let mut list = list_of(random, &plan, 0);
        if random.one_in(4) {
            // Entries of another batch, whose codes this one's class may not allow.
            list.lines = list_of(random, &plan, plan.batches.len() - 1).lines;
        }
        if random.one_in(3) {
            let mut fields: Vec<Fields> = plan.batches[0].entries.iter().map(fields_of).collect();
            for _ in 0..1 + random.below(2) {
                random_field_damage(random, &mut fields);
            }
            list.lines = spelled(random, &fields);
        }
        for _ in 0..random.below(3) {
            list.lines = random_list_damage(random, &list.lines);
        }
        import(tally, "a random list", &list);
    }
}

/// Tables in order and damaged, exported; the lists are imported again, and the six fields are
/// those of the table.
fn random_exports(tally: &mut Tally, random: &mut Random, cases: u64) {
    for case in 0..cases / 2 {
        let (most_batches, most_entries) = if case % 50 == 0 { (10, 20) } else { (3, 5) };
        let mut plan = plan(random, most_batches, most_entries);
        if random.one_in(3) {
            fill_columns(random, &mut plan);
        }
        let table = plan.table();
        export(tally, "a random table", &table);
        imported_again(tally, &table);
        imported_again(tally, &with_prenotes_for_remittances(plan).table());
        export(tally, "a random table, damaged", &random_row_damage(random, &table));
    }
    for _ in 0..5 {
        for damaged in shape_damage(&plan(random, 3, 3).table()) {
            export(tally, "a table of doubtful shape", &damaged);
        }
    }
}

/// Fields as long as they can be, so that lines are, and nothing but quotes or commas in them.
fn fill_columns(random: &mut Random, plan: &mut Plan) {
    for entry in plan.batches.iter_mut().flat_map(|batch| &mut batch.entries) {
        let sign = *random.pick(&["\"", ",", "-", "X"]);
        *entry = Entry {
            account: "-".repeat(17),
            identification: sign.repeat(15),
            name: sign.repeat(22),
            amount: if is_payment(entry.code) { random.between(1, 99_999) } else { 0 },
            ..entry.clone()
        };
    }
}

/// Under a class that takes both sides the list of a table is granted, unless there is a remittance
/// in it: in a PPD batch the first one is refused.
fn imported_again(tally: &mut Tally, table: &[u8]) {
    let (file_row, mut batch_row) = rows_of(&sample(), 0);
    batch_row[..3].copy_from_slice(b"200");
    let Ok(lines) = ach::export(table) else {
        tally.holds("a table in order is exported", table, false);
        return;
    };
    let again = ach::import(&file_row, &batch_row, &lines);
    let fields = six_fields(table);
    let is_remittance = |fields: &&[u8]| matches!(&fields[..2], b"24" | b"29" | b"34" | b"39");
    match fields.iter().position(is_remittance) {
        None => {
            let same = again.as_ref().is_ok_and(|again| six_fields(again) == fields);
            tally.holds("the six fields come back", table, same);
        }
        Some(before) => {
            let refusal = ach::Refusal { number: 28, record: before as u64 + 3, field: 2 };
            tally.holds("the first remittance is refused", table, again == Err(refusal));
        }
    }
    import(tally, "a list that was exported", &List { file_row, batch_row, lines });
}

/// Columns 2 to 76 of every entry.
fn six_fields(table: &[u8]) -> Vec<&[u8]> {
    let entries = Sections::of(table).rows[2].clone();
    table[entries].chunks(ENTRY_ROW).map(|row| &row[..75]).collect()
}
