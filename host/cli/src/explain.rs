//! What the refusals' numbers mean, and where each can be given.

use crate::list_words::due_in;
use crate::text::columns;
use ach::fields::{Kind, RecordType, RECORD_TYPES};
use ach::LineField;

/// What a refusal's number means, and which fields can be refused with it.
pub fn of_number(number: u8) -> String {
    let reason = ach::reason(number).unwrap_or_default();
    let advice = ADVICE.iter().find(|(known, _)| *known == number).map_or("", |(_, text)| text);
    let mut lines = format!("{number}: {reason}\n{advice}\n");
    for known in &RECORD_TYPES {
        lines += &fields_with(known, number);
    }
    lines + &line_fields_with(number)
}

/// The fields of a line that can be refused with the number, and what is due in each.
fn line_fields_with(number: u8) -> String {
    let fields = ach::LINE_FIELDS.iter().zip(1..);
    let refused = fields.filter(|(field, _)| number_of_line_field(field) == number);
    refused
        .map(|(field, index)| format!("  line, field {index} {}: {}\n", field.name, due_in(field)))
        .collect()
}

fn number_of_line_field(field: &LineField) -> u8 {
    if field.name == "amount" {
        30
    } else {
        32
    }
}

fn fields_with(known: &RecordType, number: u8) -> String {
    let mut lines = String::new();
    for (field, index) in known.fields.iter().zip(1..) {
        if numbers_of(field.kind).contains(&number) {
            let columns = columns(field.first, field.last);
            let digit = char::from(known.digit);
            lines +=
                &format!("  {digit} {}, field {index} {}, {columns}\n", known.name, field.name);
        }
    }
    lines
}

/// The numbers that a field of this kind can be refused with.
fn numbers_of(kind: Kind) -> &'static [u8] {
    use ach::fields::{Near::*, Own::*};
    match kind {
        Kind::Type => &[3],
        Kind::Fixed(_) | Kind::Blanks => &[5],
        Kind::Digits => &[6],
        Kind::Optional => &[7, 9],
        Kind::Mandatory => &[7, 8, 9],
        Kind::Date => &[6, 10],
        Kind::Own(Destination) => &[5, 6, 12],
        Kind::Own(Origin | Class) => &[6, 11],
        Kind::Own(Time) => &[6, 10],
        Kind::Own(Modifier | EntryClass) => &[11],
        Kind::Own(Bank) => &[6, 13],
        Kind::Own(Account) => &[7, 8, 9],
        Kind::Near(Code) => &[6, 11, 15, 28],
        Kind::Near(CheckDigit) => &[6, 12],
        Kind::Near(Amount) => &[6, 14],
        Kind::Near(Trace | EntryTrace) => &[6, 16],
        Kind::Near(BatchNumber) => &[6, 17],
        Kind::Near(Flag) => &[11, 28],
        Kind::AsBatch(_) => &[22],
        Kind::Count(_) => &[6, 18],
        Kind::Hash(_) => &[6, 19],
        Kind::Total(_) => &[6, 20, 21],
    }
}

/// What each number asks for.
const ADVICE: [(u8, &str); 32] = [
    (1, "A file is records of 94 bytes, back to back, without line ends: 94 to 94,000,000 bytes. With\n\
     --lined it is records of 96 bytes, CR LF behind each, the last one too: 96 to 96,000,000 bytes."),
    (2, "The file ends early. Part of it is missing, or the fillers behind the file control are."),
    (3, "The order is 1, then batches of a 5, entries and an 8, then a 9 and fillers. An entry is a 6,\n\
     with a 7 behind it exactly if its column 79 is 1. There is at least one batch, and none empty."),
    (4, "Behind the file control only as many fillers stand as make the records a multiple of ten. To be\n\
     mended, a file may have more or fewer of them there, but nothing else."),
    (5, "Some columns hold the same in every file; a filler is 94 nines."),
    (6, "Only 0 to 9 may stand here, with zeros in front."),
    (7, "Text has capital letters, digits and signs; account numbers have capital letters, digits and\n\
     hyphens."),
    (8, "This field says something in every file."),
    (9, "Text begins in the first column of its field; an account number has no blank inside."),
    (10, "Days are written YYMMDD, times HHMM from 0000 to 2359."),
    (11, "Only certain values are known here, such as 220 for a batch of credits, or code 22."),
    (12, "The ninth digit of a bank's number is made from the eight before it. Compare the number with\n\
     a voided check or ask the bank."),
    (13, "The numbers of banks that receive payments begin with 0, 1, 2 or 3."),
    (14, "Codes 23, 28, 33 and 38 are prenotes, 24, 29, 34 and 39 zero-dollar remittances; they carry 0.\n\
     The others carry 0.01 to 99999999.99."),
    (15, "Under class 220 stand credits (22, 23, 24, 32, 33, 34), under 225 debits (27, 28, 29, 37, 38,\n\
     39), under 200 both."),
    (16, "A trace number is the batch's bank and a number that is greater than in the entry before;\n\
     numbers may be left out, and each batch begins anew with 1 or more. An addendum repeats it."),
    (17, "Batch numbers start at 1 or above, and each is greater than the one before."),
    (18, "The control does not count what is there: an entry may be missing, or be there twice."),
    (19, "The hash is the sum of the entries' bank numbers without check digits, cut to ten digits."),
    (20, "A batch's or a file's debits or credits may come to 9,999,999,999.99. Split the payments."),
    (21, "The control's total is not what the entries come to: an amount or an entry was changed."),
    (22, "The batch control repeats class, company, bank and number of the batch header."),
    (23, "The result did not fit where it should go. Programs see this number; this command does not."),
    (24, "A pay table has a header row, batches, entries and addenda, each after a count of six digits."),
    (25, "Entries are counted from 1 through the file, as `ach show` does."),
    (26, "With --lined, CR LF (the bytes 0D 0A) stands behind column 94 of every record, fillers too.\n\
     Without --lined there are no line ends, and this number is not given."),
    (27, "A file has at least one entry, so they cannot all be taken out. To recall every payment of a\n\
     file, do not send it."),
    (28, "Codes 24, 29, 34 and 39 are zero-dollar remittances. They stand in CCD batches only, carry 0 and\n\
     have an addendum with the text that they are sent for. A list has no addenda, so it has none of them."),
    (29, "A line has six fields with commas between them: code, routing number, account, amount,\n\
     identification, name. A field with a comma, a quote or a break in it stands in quotes, and a\n\
     quote in it is doubled. CR LF ends a line. There is no header line and no empty line."),
    (30, "The amount of a line is written 1234.56, without signs, blanks or commas."),
    (32, "An entry has so many columns for a field. Blanks count; the quotes around a field do not, and\n\
     a doubled quote in it counts once."),
    (34, "With an alteration a program lends the rows of the file: for each batch the record of its control\n\
     and the credits so far. This command takes them from the file, so that it does not see this number."),
];

#[cfg(test)]
mod tests {
    use super::*;
    use crate::due::RefusedField;
    use ach::Way;
    use std::collections::BTreeSet;

    #[test]
    fn every_number_has_its_advice() {
        let known = (0..=255).filter(|number| ach::reason(*number).is_some());
        assert!(known.eq(ADVICE.iter().map(|(number, _)| *number)));
    }

    #[test]
    fn every_number_seen_is_listed_for_its_field() {
        let mut seen = BTreeSet::new();
        for vector in vectors::all() {
            let Err(refusal) = ach::check(Way::Plain, &vector.file) else {
                continue;
            };
            if let Some(refused) = RefusedField::of(Way::Plain, &vector.file, refusal) {
                let numbers = numbers_of(refused.field.kind);
                assert!(numbers.contains(&refusal.number), "{}: {refusal}", vector.about);
                seen.insert((refused.record[0], refusal.field, refusal.number));
            }
        }
        // The vectors show every number of every field, so none may be listed beyond those.
        for known in &RECORD_TYPES {
            for (field, index) in known.fields.iter().zip(1..).skip(1) {
                for &number in numbers_of(field.kind) {
                    let shown = seen.contains(&(known.digit, index, number));
                    assert!(shown, "{} field {index}: {number}", known.name);
                }
            }
        }
    }
}
