//! What the folder holds.

/// A file of the folder.
pub struct Sample {
    /// Its name, from the folder on.
    pub name: String,
    pub bytes: Vec<u8>,
}
