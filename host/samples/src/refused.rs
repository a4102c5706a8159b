//! Files that are refused, each for one fault.

use crate::accepted;
use crate::sample::Sample;
use generate::controls::without_controls;
use generate::copies::{with_field, with_trace, without_record};
use generate::lines::lined;
use generate::remittances::{with_entry_class, without_addendum};
use generate::seal::resealed;
use generate::{sample, RECORD};

pub fn all() -> Vec<Sample> {
    let whole = sample().file();
    let remittances = accepted::remittances().file();
    let with = |record, field, text: &str| with_field(&whole, record, field, text);
    let files = [
        ("empty", Vec::new()),
        ("line-ends", lined(&whole)),
        ("header-alone", whole[..RECORD].to_vec()),
        ("fillers-missing", whole[..7 * RECORD].to_vec()),
        ("second-control", with_second_control(&whole)),
        ("lower-case", with(3, 8, "Marlowe, Ada          ")),
        ("account-lower-case", with(3, 5, "cu-7k2b          ")),
        ("blank-in-account", with(3, 5, "12 3             ")),
        ("no-such-day", with(2, 9, "010229")),
        ("check-digit", with(4, 4, "7")),
        ("zero-pay", with(3, 6, "0000000000")),
        ("debit-in-credits", with(3, 2, "27")),
        ("trace-twice", with_trace(&whole, 4, 1)),
        ("amount-changed", with(3, 6, "0000010001")),
        ("entry-lost", without_record(&accepted::eleven().file(), 20)),
        ("bank-blank", with_field(&accepted::loans().file(), 2, 12, "        ")),
        ("blocks-as-printed", with_field(&accepted::loans().file(), 16, 3, "000001")),
        ("remittance-ppd", with_entry_class(&remittances, 5, "PPD")),
        ("remittance-bare", resealed(&without_addendum(&remittances, 5))),
        ("controls-blank", without_controls(&accepted::vendors().file()[..7 * RECORD], b' ')),
        ("control-missing", without_record(&whole, 7)),
        ("hash-as-printed", with_field(&accepted::taxes().file(), 6, 4, "0064404066")),
    ];
    let named = files.map(|(name, bytes)| Sample { name: format!("refused/{name}.ach"), bytes });
    named.into()
}

/// The first filler replaced by the file control once more.
fn with_second_control(file: &[u8]) -> Vec<u8> {
    let mut changed = file.to_vec();
    changed.copy_within(6 * RECORD..7 * RECORD, 7 * RECORD);
    changed
}
