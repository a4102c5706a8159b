//! Files, each with the line that the check program must print for it.
//!
//! Every line is stated where its file is made, from the rule that the file keeps or breaks; no
//! implementation of the rules is asked. A test compares the lines with the independent one.

mod collection;
mod fields;
mod funds;
mod lines;
mod remittances;
mod structure;
mod values;

use collection::Collection;
use generate::lines::lined as with_line_ends;

pub use collection::Vector;

/// The longest file that the check program looks at.
pub const LONGEST: usize = 64_860;

/// All vectors of files without line ends, each file once.
pub fn all() -> Vec<Vector> {
    let mut collection = Collection::default();
    structure::collect(&mut collection);
    fields::collect(&mut collection);
    values::collect(&mut collection);
    remittances::collect(&mut collection);
    funds::collect(&mut collection);
    let vectors = collection.into_vectors();
    for Vector { about, file, .. } in &vectors {
        assert!(file.len() <= LONGEST, "{about}: too long to be looked at");
    }
    vectors
}

/// All vectors of files with CR LF behind every record, which the check program does not take:
/// those of the line ends, and the twins of all others, whose lines are the same.
pub fn lined() -> Vec<Vector> {
    let mut collection = Collection::default();
    lines::collect(&mut collection);
    for Vector { about, file, line } in all() {
        collection.add(&format!("with line ends: {about}"), with_line_ends(&file), line);
    }
    collection.into_vectors()
}
