//! `ach`: checks, reads, writes, alters, mends and shows ACH payment files, takes entries out of them,
//! tells where their credits pass a limit, and takes client lists.
//!
//! All that is decided about a file is decided by the proved library. What is here moves bytes
//! between files and the library's functions, and puts its answers into words.

#![deny(unsafe_code)]

mod commands;
mod due;
mod explain;
mod formed;
mod funds;
mod input;
mod list;
mod list_words;
mod lock;
mod mend;
mod money;
mod options;
mod place;
mod progress;
mod recall;
mod show;
mod stdout;
mod system;
mod temporary;
mod text;
mod trouble;
mod words;

use std::io::Write;
use std::process::ExitCode;
use trouble::Trouble;

const REFUSED: u8 = 1;
const TROUBLE: u8 = 2;

fn main() -> ExitCode {
    match options::parse(std::env::args_os().skip(1)).and_then(commands::run) {
        Ok(()) => ExitCode::SUCCESS,
        Err(trouble) => ExitCode::from(report(&trouble)),
    }
}

/// Tells what stood in the way, and gives the exit status. A closed standard error is no reason
/// to fail in another way.
fn report(trouble: &Trouble) -> u8 {
    let mut to = std::io::stderr().lock();
    match trouble {
        Trouble::Refused(words) => {
            let _ = write!(to, "{words}");
            REFUSED
        }
        Trouble::Failed(words) => {
            let _ = writeln!(to, "ach: {words}");
            TROUBLE
        }
        Trouble::Misused(words) => {
            let _ = writeln!(to, "ach: {words}\nTry `ach --help`.");
            TROUBLE
        }
    }
}
