//! What can stand in the way of a command.

use std::fmt;
use std::io::{self, Write};
use std::path::Path;

pub enum Trouble {
    /// The library refuses: the words for it, lines and all; none if they have been said.
    Refused(String),
    /// A file cannot be read or written.
    Failed(String),
    /// The command line makes no sense.
    Misused(String),
}

impl fmt::Display for Trouble {
    fn fmt(&self, to: &mut fmt::Formatter) -> fmt::Result {
        let (Trouble::Refused(words) | Trouble::Failed(words) | Trouble::Misused(words)) = self;
        to.write_str(words)
    }
}

/// Says on standard error what is no trouble, but good to know. That nobody listens is none either.
pub fn warn(words: &str) {
    let _ = writeln!(io::stderr().lock(), "ach: {words}");
}

pub fn misused<T>(words: impl Into<String>) -> Result<T, Trouble> {
    Err(Trouble::Misused(words.into()))
}

pub fn failed<T>(words: impl Into<String>) -> Result<T, Trouble> {
    Err(Trouble::Failed(words.into()))
}

/// For `map_err`: what the system says of a file.
pub fn with_path(path: &Path) -> impl Fn(io::Error) -> Trouble + '_ {
    move |error| Trouble::Failed(format!("{}: {}", shown(path), plain(&error)))
}

/// A name that goes to a terminal: what is no text, or would move the cursor, is replaced, and what
/// is not seen but changes how the rest is seen is written out.
pub fn shown(path: &Path) -> String {
    let mut shown = String::new();
    for sign in path.to_string_lossy().chars() {
        match sign {
            sign if sign.is_control() => shown.push('\u{FFFD}'),
            sign if is_unseen(sign) => shown.extend(sign.escape_unicode()),
            sign => shown.push(sign),
        }
    }
    shown
}

/// Marks for the direction of writing, signs without width, line breaks of their own, tags.
fn is_unseen(sign: char) -> bool {
    matches!(
        sign,
        '\u{AD}'
            | '\u{61C}'
            | '\u{180E}'
            | '\u{200B}'..='\u{200F}'
            | '\u{2028}'..='\u{202E}'
            | '\u{2060}'..='\u{206F}'
            | '\u{FEFF}'
            | '\u{FFF9}'..='\u{FFFB}'
            | '\u{E0000}'..='\u{E007F}'
    )
}

/// The system's words without Rust's number behind them.
pub fn plain(error: &io::Error) -> String {
    let words = error.to_string();
    words.split(" (os error").next().unwrap_or_default().to_string()
}
