//! Standard output, which may be closed, full or without a reader.

use crate::system;
use crate::trouble::{failed, plain, Trouble};
use std::io::{self, BufWriter, StdoutLock, Write};

pub fn write(bytes: &[u8]) -> Result<(), Trouble> {
    page(|to| to.write_all(bytes))
}

/// For what is written bit by bit.
pub fn page(
    fill: impl FnOnce(&mut BufWriter<StdoutLock>) -> io::Result<()>,
) -> Result<(), Trouble> {
    if system::standard_output_is_closed() {
        return failed("standard output: it is closed");
    }
    let mut to = BufWriter::new(io::stdout().lock());
    match fill(&mut to).and_then(|()| to.flush()) {
        Ok(()) => Ok(()),
        Err(error) => failed(format!("standard output: {}", plain(&error))),
    }
}
