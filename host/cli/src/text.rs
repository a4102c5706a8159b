//! How what stands in a file is shown: its bytes, and the columns they are in.

/// Bytes of a file, in quotes, with those made visible that are no text.
pub fn plain_text(bytes: &[u8]) -> String {
    let mut text = String::from("\"");
    for &byte in bytes {
        match byte {
            b' '..=b'~' => text.push(char::from(byte)),
            _ => text += &format!("\\x{byte:02X}"),
        }
    }
    text + "\""
}

pub fn columns(first: usize, last: usize) -> String {
    if first == last {
        format!("column {first}")
    } else {
        format!("columns {first}-{last}")
    }
}

#[cfg(test)]
mod tests {
    use super::*;

    #[test]
    fn bytes_that_are_no_text_are_made_visible() {
        assert_eq!(plain_text(b"A \x00\xFF~\n"), "\"A \\x00\\xFF~\\x0A\"");
    }
}
