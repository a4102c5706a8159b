//! Files with CR LF behind every record: three in order, and refused ones made from the first.

use crate::accepted;
use crate::sample::Sample;
use generate::lines::with_end;
use generate::sample;

pub fn all() -> Vec<Sample> {
    let whole = sample().lined_file();
    let files = [
        ("refused/blank-for-cr", with_end(&whole, 4, b" \n")),
        ("refused/ends-swapped", with_end(&whole, 10, b"\n\r")),
        ("refused/last-end-missing", with_end(&whole, 10, b"")),
        ("whole", whole),
        ("gaps", accepted::gaps().lined_file()),
        ("union", accepted::union().lined_file()),
    ];
    files.map(|(name, bytes)| Sample { name: format!("{name}-lined.ach"), bytes }).into()
}
