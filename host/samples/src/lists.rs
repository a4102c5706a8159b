//! A client's list as a spreadsheet exports it, the two rows that it is imported with, and lists
//! that are refused, each for one fault.

use crate::accepted;
use crate::sample::Sample;
use generate::lists::rows_of;

/// Quotes where they are needed and once where they are not, a comma in two names, quotes in one,
/// and a leading zero that the amount could do without.
const TEAM: &str = "\
22,322070381,4410-22871,2000.00,E-2001,\"MARLOWE, ADA\"\r
22,322070381,009831740,1999.99,E-2002,\"OKAFOR, BEN\"\r
32,053000219,CU-7K2B,250.00,\"E-2003\",\"THE \"\"RED\"\" HOUSE\"\r
22,021302648,70-000004,012.50,,DE LUCA ELENA\r
";

pub fn all() -> Vec<Sample> {
    let (file_row, mut batch_row) = rows_of(&accepted::team(), 0);
    // An import fills the count in, whatever stands there.
    batch_row[89..].fill(b'0');
    let with = |old: &str, new: &str| TEAM.replacen(old, new, 1).into_bytes();
    let files = [
        ("team.file-row", file_row),
        ("team.batch-row", batch_row),
        ("team.csv", TEAM.into()),
        ("refused/line-feeds.csv", TEAM.replace('\r', "").into_bytes()),
        ("refused/quote-open.csv", with("BEN\"", "BEN")),
        ("refused/quotes-single.csv", with("\"\"RED\"\"", "\"RED\"")),
        ("refused/amount-grouped.csv", with("2000.00", "\"2,000.00\"")),
        ("refused/name-long.csv", with("DE LUCA ELENA", "DE LUCA ELENA FRANCESCA")),
        ("refused/routing-number.csv", with("053000219", "053000218")),
        (
            "refused/remittance.csv",
            with("22,021302648,70-000004,012.50", "24,021302648,70-000004,0.00"),
        ),
    ];
    files.map(|(name, bytes)| Sample { name: name.into(), bytes }).into()
}
