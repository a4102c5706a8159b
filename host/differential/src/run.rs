//! What the caller asks of a run.

/// How the random part of a run is chosen.
pub struct Run {
    pub seed: u64,
    /// How many random cases; None for the number that suits the subcommand.
    pub cases: Option<u64>,
    /// How long a fuzz run lasts.
    pub seconds: u64,
}
