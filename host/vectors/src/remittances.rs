//! Zero-dollar remittances: in CCD batches only, with amount 0 and an addendum.

use crate::collection::Collection;
use generate::copies::{with_field, without_record};
use generate::remittances::{in_ccd, of_code, with_entry_class, without_addendum, REMITTANCES};
use generate::seal::resealed;
use generate::{is_credit, sample, Batch, Plan, CODES};

/// The one entry of most files here, and the addendum behind it.
const ENTRY: usize = 3;
const ADDENDUM: usize = 4;

pub fn collect(to: &mut Collection) {
    accepted(to);
    unknown_codes(to);
    in_ppd(to);
    amounts(to);
    addenda(to);
    entry_classes(to);
    controls(to);
}

/// A CCD batch with one remittance, under the class of its side.
fn one(code: u32) -> Plan {
    in_ccd(if is_credit(code) { 220 } else { 225 }, &[code])
}

fn accepted(to: &mut Collection) {
    for code in REMITTANCES {
        to.accepted(&format!("a remittance of code {code}"), &one(code));
        to.accepted(&format!("code {code} under class 200"), &in_ccd(200, &[code]));
    }
    to.accepted("all twelve codes in a CCD batch", &in_ccd(200, &CODES));
    to.accepted("credits with both remittances", &in_ccd(220, &[22, 24, 32, 34]));
    to.accepted("debits with both remittances", &in_ccd(225, &[29, 27, 39, 37]));
    let mut plan = one(24);
    plan.batches[0].entries[0].addendum = Some(String::new());
    to.accepted("a remittance whose addendum has no text", &plan);
    let mut plan = in_ccd(200, &[24, 23, 28, 39]);
    for entry in &mut plan.batches[0].entries[1..3] {
        entry.addendum = None;
    }
    to.accepted("prenotes between remittances need no addendum", &plan);
}

/// The codes around the known ones, those of returns among them.
fn unknown_codes(to: &mut Collection) {
    let file = in_ccd(200, &[24]).file();
    for code in ["20", "21", "25", "26", "30", "31", "35", "36", "40", "42", "49"] {
        let about = format!("code {code} in a CCD batch");
        to.refused(&about, with_field(&file, ENTRY, 2, code), (11, ENTRY, 2));
    }
}

fn in_ppd(to: &mut Collection) {
    for code in REMITTANCES {
        let file = with_entry_class(&one(code).file(), ENTRY, "PPD");
        to.refused(&format!("code {code} in a PPD batch"), file.clone(), (28, ENTRY, 2));
        let other_side =
            resealed(&with_field(&file, 2, 2, if is_credit(code) { "225" } else { "220" }));
        let about = format!("code {code} on the wrong side of a PPD batch");
        to.refused(&about, other_side.clone(), (15, ENTRY, 2));
        let about = format!("code {code} on the wrong side of a CCD batch");
        to.refused(&about, with_entry_class(&other_side, ENTRY, "CCD"), (15, ENTRY, 2));
    }
    let file = with_entry_class(&one(24).file(), ENTRY, "PPD");
    for (about, field, text) in [
        ("the entry class before the check digit", 4, "2"),
        ("the entry class before the amount", 6, "0000000001"),
        ("the entry class before the addendum", 10, "0"),
    ] {
        to.refused(about, with_field(&file, ENTRY, field, text), (28, ENTRY, 2));
    }
}

fn amounts(to: &mut Collection) {
    for code in REMITTANCES {
        let file = one(code).file();
        let with_amount = |amount: &str| resealed(&with_field(&file, ENTRY, 6, amount));
        let cent = with_amount("0000000001");
        let about = format!("code {code} with a cent");
        to.refused(&about, cent.clone(), (14, ENTRY, 6));
        let about = format!("code {code} with a cent and no addendum");
        to.refused(&about, without_addendum(&cent, ENTRY), (14, ENTRY, 6));
        let about = format!("code {code} with the largest amount");
        to.refused(&about, with_amount("9999999999"), (14, ENTRY, 6));
    }
}

fn addenda(to: &mut Collection) {
    for code in REMITTANCES {
        let file = one(code).file();
        let about = format!("code {code} without an addendum");
        to.refused(&about, resealed(&without_addendum(&file, ENTRY)), (28, ENTRY, 10));
        let about = format!("code {code} with an addendum that it does not announce");
        to.refused(&about, with_field(&file, ENTRY, 10, "0"), (28, ENTRY, 10));
        let about = format!("code {code} with something else for the flag");
        to.refused(&about, with_field(&file, ENTRY, 10, "2"), (11, ENTRY, 10));
    }
    let file = one(24).file();
    let bare = without_addendum(&file, ENTRY);
    let no_name = with_field(&bare, ENTRY, 8, [b' '; 22]);
    to.refused("the name before the addendum that lacks", no_name, (8, ENTRY, 8));
    let no_trace = with_field(&bare, ENTRY, 11, "322070380000000");
    to.refused("the addendum that lacks before the trace", no_trace, (28, ENTRY, 10));
    let announced = without_record(&file, ADDENDUM);
    to.refused("an addendum announced and not there", announced, (3, ADDENDUM, 1));
    let second = in_ccd(220, &[22, 34]).file();
    let bare = resealed(&without_addendum(&second, ENTRY + 2));
    to.refused("a second entry without its addendum", bare, (28, ENTRY + 2, 10));
    let bare = resealed(&without_addendum(&second, ENTRY));
    to.add("a payment without an addendum before a remittance", bare, "OK 1 2 1 0 2550".into());
}

/// The entry class that counts is the one of the entry's own batch.
fn entry_classes(to: &mut Collection) {
    let ppd = Batch { number: 2, ..sample().batches.remove(0) };
    let mut plan = one(24);
    plan.batches.push(ppd);
    to.accepted("a PPD batch behind a remittance", &plan);
    let entry = &mut plan.batches[1].entries[1];
    *entry = of_code(24, entry.clone());
    to.refused("a remittance in a PPD batch behind a CCD batch", plan.file(), (28, 8, 2));
    plan.batches.swap(0, 1);
    plan.batches[0].number = 1;
    plan.batches[1].number = 2;
    to.refused("a remittance in a PPD batch before a CCD batch", plan.file(), (28, 4, 2));
    plan.batches[0].entries.truncate(1);
    to.accepted("a remittance in a CCD batch behind a PPD batch", &plan);
}

/// Entries of nothing are entries: they are counted and hashed.
fn controls(to: &mut Collection) {
    let file = in_ccd(220, &[22, 24]).file();
    // Records: two headers, two entries with addenda, and the controls, 7 and 8.
    for (about, record, field, text, number) in [
        ("a remittance not counted in its batch", 7, 3, "000002", 18),
        ("a remittance not hashed in its batch", 7, 4, "0032207038", 19),
        ("a remittance not counted in the file", 8, 4, "00000002", 18),
        ("a remittance not hashed in the file", 8, 5, "0032207038", 19),
    ] {
        to.refused(about, with_field(&file, record, field, text), (number, record, field));
    }
}
