//! Client lists as comma lines, with the rows that go with them: in order and damaged.

use crate::plan::{routing_check_digit, Entry, Plan};
use crate::random::Random;
use crate::tables::Sections;

/// What is given to an import.
#[derive(Clone, Debug)]
pub struct List {
    pub file_row: Vec<u8>,
    pub batch_row: Vec<u8>,
    pub lines: Vec<u8>,
}

/// The six fields of a line.
pub type Fields = [Vec<u8>; 6];

/// How many columns each field of a line has in an entry; the amount's are its ten digits.
pub const WIDTHS: [usize; 6] = [2, 9, 17, 10, 15, 22];
pub const AMOUNT: usize = 3;

/// Amounts on both sides of their form and of the largest.
pub const AMOUNTS: [&str; 44] = [
    "",
    "0",
    "1",
    "00",
    ".",
    ".5",
    ".50",
    "1.",
    "1.5",
    "1.50",
    "1.234",
    "1.2.3",
    "1..00",
    "0.0",
    "0.00",
    "0.01",
    "00.01",
    "+1.00",
    "-1.00",
    " 1.00",
    "1.00 ",
    "1,00",
    "1,234.56",
    "1.0O",
    "O.00",
    "1e2.00",
    "1:00",
    "1/00",
    "1.0/",
    "1.0:",
    "/.00",
    ":.00",
    "99999999.98",
    "99999999.99",
    "100000000.00",
    "099999999.99",
    "0100000000.00",
    "999999999.99",
    "000000000000000000000000000000000000000099999999.99",
    "000000000000000000000000000000000000000100000000.00",
    "18446744073709551616.00",
    "184467440737095516.16",
    "184467440737095517.15",
    "340282366920938463463374607431768211456.01",
];

/// What may stand in a list and means something there, or nothing at all.
pub const PIECES: [&[u8]; 24] = [
    b"\"",
    b"\"\"",
    b",",
    b"\r\n",
    b"\r",
    b"\n",
    b"\n\r",
    b"\r\r\n",
    b"\t",
    b" ",
    b"0",
    b"9",
    b"A",
    b"a",
    b"~",
    b"!",
    b"#",
    b"+",
    b"-",
    b"\x1F",
    b"\x7F",
    b"\x80",
    b"\xFF",
    b"\xEF\xBB\xBF",
];

/// The rows of a plan's header and of one of its batches.
pub fn rows_of(plan: &Plan, batch: usize) -> (Vec<u8>, Vec<u8>) {
    let table = plan.table();
    let [header, batches, ..] = Sections::of(&table).rows;
    let row = table[batches].chunks(crate::tables::BATCH_ROW).nth(batch).expect("such a batch");
    (table[header].to_vec(), row.to_vec())
}

/// The list of a plan's batch, which is imported with that batch's row.
pub fn list_of(random: &mut Random, plan: &Plan, batch: usize) -> List {
    let (file_row, batch_row) = rows_of(plan, batch);
    let fields: Vec<Fields> = plan.batches[batch].entries.iter().map(fields_of).collect();
    List { file_row, batch_row, lines: spelled(random, &fields) }
}

/// The fields of an entry as a spreadsheet has them.
pub fn fields_of(entry: &Entry) -> Fields {
    [
        format!("{:02}", entry.code),
        format!("{:08}{}", entry.routing, routing_check_digit(entry.routing)),
        entry.account.clone(),
        format!("{}.{:02}", entry.amount / 100, entry.amount % 100),
        entry.identification.clone(),
        entry.name.clone(),
    ]
    .map(String::into_bytes)
}

/// Lines of these fields, with quotes where they are needed and here and there where they are not;
/// the last one has its break or has none.
pub fn spelled(random: &mut Random, lines: &[Fields]) -> Vec<u8> {
    let mut list = Vec::new();
    for fields in lines {
        for (field, index) in fields.iter().zip(0..) {
            list.extend_from_slice(if index == 0 { b"" } else { b"," });
            let needed = field.iter().any(|byte| b"\",\r\n".contains(byte));
            let spelled = if needed || random.one_in(3) { quoted(field) } else { field.clone() };
            list.extend(spelled);
        }
        list.extend_from_slice(b"\r\n");
    }
    if random.one_in(2) {
        list.truncate(list.len().saturating_sub(2));
    }
    list
}

/// The field in quotes, every quote in it doubled.
pub fn quoted(field: &[u8]) -> Vec<u8> {
    let mut text = vec![b'"'];
    for &byte in field {
        text.push(byte);
        if byte == b'"' {
            text.push(byte);
        }
    }
    text.push(b'"');
    text
}

/// A copy with something else in the place of a part of it.
pub fn replaced(lines: &[u8], part: std::ops::Range<usize>, piece: &[u8]) -> Vec<u8> {
    [&lines[..part.start], piece, &lines[part.end..]].concat()
}

/// Does one random thing to the bytes of a list: a piece put in or in a byte's place, a part taken
/// out or doubled, the rest cut off.
pub fn random_list_damage(random: &mut Random, lines: &[u8]) -> Vec<u8> {
    let from = random.below(lines.len() + 1);
    let length = 1 + random.below(6);
    let part = from..(from + length).min(lines.len());
    let byte = from..(from + 1).min(lines.len());
    let piece = *random.pick(&PIECES);
    match random.below(8) {
        0 => replaced(lines, part, b""),
        1 => {
            let twice = lines[part.clone()].repeat(2);
            replaced(lines, part, &twice)
        }
        2 => lines[..from].to_vec(),
        3 => replaced(lines, byte, &[random.byte()]),
        4 | 5 => replaced(lines, from..from, piece),
        _ => replaced(lines, byte, piece),
    }
}

/// Puts another value into one random field: an amount near the edges, a text one column too long
/// or just as long as it may be, nothing, blanks around it, or a byte that text does not take.
pub fn random_field_damage(random: &mut Random, lines: &mut [Fields]) {
    if lines.is_empty() {
        return;
    }
    let line = random.below(lines.len());
    let index = random.below(6);
    let field = &mut lines[line][index];
    let width = WIDTHS[index];
    *field = match random.below(10) {
        0..=3 if index == AMOUNT => random.pick(&AMOUNTS).as_bytes().to_vec(),
        0 => vec![b'"'; width],
        1 => vec![b'7'; width + 1],
        2 => vec![b'7'; width],
        3 => Vec::new(),
        4 => [b" ", field.as_slice()].concat(),
        5 => [field.as_slice(), b" "].concat(),
        6 => [field.as_slice(), *random.pick(&PIECES)].concat(),
        7 => field[..random.below(field.len() + 1)].to_vec(),
        8 => field.to_ascii_lowercase(),
        _ => [field.as_slice(), b"\r\n"].concat(),
    };
}
