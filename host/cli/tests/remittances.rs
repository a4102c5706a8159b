//! Zero-dollar remittances at the desk: how they are shown, and the words where they are refused.

mod common;

use common::{sample, Folder};
use generate::remittances::in_ccd;

#[test]
fn show() {
    let run = ach!("show", sample("remittances.ach"));
    let entry = "
       2  24    322070381  4410-22871                0.00  ASHDOWN TIMBER          S-301
          addendum: RMR*IV*20844**0*480.00*480.00\\NTE**SETTLED BY CREDIT MEMO 77\\
";
    let rows = "
22 checking, credit                    1          1240.00
23 checking, credit prenote            1             0.00
24 checking, credit remittance         2             0.00
27 checking, debit                     0             0.00
28 checking, debit prenote             0             0.00
29 checking, debit remittance          1             0.00
32 savings, credit                     0             0.00
33 savings, credit prenote             0             0.00
34 savings, credit remittance          1             0.00
37 savings, debit                      0             0.00
38 savings, debit prenote              0             0.00
39 savings, debit remittance           1             0.00
all debits                                           0.00
all credits                                       1240.00
batches 1, entries 7, addenda 6
";
    assert_eq!((run.status, run.err.as_str()), (0, ""));
    assert!(run.out.contains(entry) && run.out.ends_with(rows), "{}", run.out);
}

#[test]
fn the_words_for_both_grounds() {
    let reason = "refused, 28: a zero-dollar remittance stands in a PPD batch or has no addendum";
    for (name, place, stands, due) in [
        (
            "refused/remittance-ppd.ach",
            "field 2 Transaction code, columns 2-3",
            "24",
            "22, 23, 32 or 33 for a credit, 27, 28, 37 or 38 for a debit; zero-dollar remittances \
             stand in CCD batches, and this one is PPD",
        ),
        (
            "refused/remittance-bare.ach",
            "field 10 Addenda record indicator, column 79",
            "0",
            "\"1\", and an addendum behind the entry: a remittance is sent for its text",
        ),
    ] {
        let file = sample(name);
        let words = format!(
            "{}: {reason}
  where  record 5, type 6 entry 2, {place}
  stands \"{stands}\"
  due    {due}
",
            file.display()
        );
        ach!("check", file).is(1, "", &words);
    }
}

/// What is due where another number is given.
#[test]
fn the_words_beside_it() {
    let folder = Folder::new();
    let refused = |plan: generate::Plan, number: u8, due: &str| {
        let run = ach!("check", folder.with("bad.ach", &plan.file()));
        assert!(run.err.contains(&format!("refused, {number}: ")), "{run:?}");
        assert!(run.err.ends_with(&format!("  due    {due}\n")), "{run:?}");
    };
    let mut cent = in_ccd(220, &[34]);
    cent.batches[0].entries[0].amount = 1;
    refused(cent, 14, "\"0000000000\", since the code is a zero-dollar remittance's");
    let credits = "22, 23, 24, 32, 33 or 34: the batch is for credits";
    refused(in_ccd(220, &[29]), 15, credits);
    refused(in_ccd(225, &[34]), 15, "27, 28, 29, 37, 38 or 39: the batch is for debits");
    refused(in_ccd(220, &[25]), 11, credits);
    let both = "22, 23, 24, 32, 33 or 34 for a credit, 27, 28, 29, 37, 38 or 39 for a debit";
    refused(in_ccd(200, &[30]), 11, both);
}

#[test]
fn alter() {
    let folder = Folder::new();
    let (file, new) = (sample("remittances.ach"), folder.path("new.ach"));
    let words = format!(
        "{}: refused, 14: the amount does not suit the transaction code
  where  record 5, type 6 entry 2, field 6 Amount, columns 30-39
  stands \"0000000000\"; asked for is 0.01
  due    \"0000000000\", since the code is a zero-dollar remittance's
",
        file.display()
    );
    ach!("alter", file, "2", "0.01", "-o", new).is(1, "", &words);
    ach!("alter", file, "2", "0.00", "-o", new, "--line").is(0, "OK 1 7 6 0 124000\n", "");
    assert_eq!(std::fs::read(&new).unwrap(), std::fs::read(&file).unwrap());
    ach!("addendum", new, "6").is(0, "NTE**NOTHING DUE FOR OCTOBER\\\n", "");
    ach!("remove", new, "1", "7", "--in-place", "--line").is(0, "OK 1 5 5 0 0\n", "");
}

/// A list cannot have them, whatever its batch's entry class.
#[test]
fn import() {
    let folder = Folder::new();
    let batch_row = std::fs::read(sample("team.batch-row")).unwrap();
    let entry_class = batch_row.windows(3).position(|part| part == b"PPD").unwrap();
    let list = sample("refused/remittance.csv");
    for (class, field, stands) in [
        ("PPD", "field 2 Transaction code, columns 2-3", "24"),
        ("CCD", "field 10 Addenda record indicator, column 79", "0"),
    ] {
        let mut row = batch_row.clone();
        row[entry_class..entry_class + 3].copy_from_slice(class.as_bytes());
        let row = folder.with("batch-row", &row);
        let (file_row, table) = (sample("team.file-row"), folder.path("table"));
        let words = format!(
            "{}: refused, 28: a zero-dollar remittance stands in a PPD batch or has no addendum
  where  line 4, field 1 code; record 6, type 6 entry 4, {field} of the file to be written
  stands \"{stands}\"
  due    a payment or a prenote: zero-dollar remittances have addenda, and a list has none
",
            list.display()
        );
        ach!("import", list, "--file-row", file_row, "--batch-row", row, "-o", table)
            .is(1, "", &words);
    }
}

#[test]
fn explain() {
    let words = "28: a zero-dollar remittance stands in a PPD batch or has no addendum
Codes 24, 29, 34 and 39 are zero-dollar remittances. They stand in CCD batches only, carry 0 and
have an addendum with the text that they are sent for. A list has no addenda, so it has none of them.
  6 entry, field 2 Transaction code, columns 2-3
  6 entry, field 10 Addenda record indicator, column 79
";
    ach!("explain", "28").is(0, words, "");
}
