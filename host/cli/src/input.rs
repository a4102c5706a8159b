//! Reading a file whole, but never more of it than it may have.

use crate::options::Source;
use crate::trouble::{failed, shown, with_path, Trouble};
use std::fs::{File, Metadata};
use std::io::{self, Read};
use std::os::unix::fs::MetadataExt;
use std::path::Path;

/// What was read.
pub struct Input {
    pub content: Content,
    /// Of a regular file: which one it was, to be looked at again before it is replaced.
    pub stamp: Option<Stamp>,
}

pub enum Content {
    Bytes(Vec<u8>),
    /// More bytes than it may have, so that the rest was not read.
    TooLong,
    /// The first bytes, which settled it, so that the rest was not read.
    Beginning(Vec<u8>),
}

/// What tells a file that was written to, or replaced, from the one that was read.
#[derive(Clone, Copy, Debug, PartialEq, Eq)]
pub struct Stamp {
    device: u64,
    inode: u64,
    length: u64,
    modified: (i64, i64),
}

impl Stamp {
    pub fn of(metadata: &Metadata) -> Self {
        Stamp {
            device: metadata.dev(),
            inode: metadata.ino(),
            length: metadata.len(),
            modified: (metadata.mtime(), metadata.mtime_nsec()),
        }
    }

    pub fn is_of_same_file(&self, other: &Stamp) -> bool {
        (self.device, self.inode) == (other.device, other.inode)
    }
}

/// How much is read, and of what it is enough to know the beginning.
#[derive(Clone, Copy)]
pub struct Limits {
    pub most: usize,
    /// Told the first bytes of what is longer than these: whether they settle it.
    pub settled: fn(&[u8]) -> bool,
}

impl Limits {
    pub fn up_to(most: usize) -> Self {
        Limits { most, settled: |_| false }
    }
}

/// As many bytes are looked at first.
const BEGINNING: u64 = 1 << 20;

pub fn read(source: &Source, limits: Limits) -> Result<Input, Trouble> {
    match source {
        Source::StandardInput => {
            let name = source.name();
            let content =
                content(io::stdin().lock(), limits).map_err(with_path(Path::new(&name)))?;
            Ok(Input { content, stamp: None })
        }
        Source::File(path) => read_file(path, limits),
    }
}

fn read_file(path: &Path, limits: Limits) -> Result<Input, Trouble> {
    let file = File::open(path).map_err(with_path(path))?;
    let metadata = file.metadata().map_err(with_path(path))?;
    if metadata.is_dir() {
        return failed(format!("{}: this is a folder, not a file", shown(path)));
    }
    if !metadata.is_file() {
        let content = content(&file, limits).map_err(with_path(path))?;
        return Ok(Input { content, stamp: None });
    }
    if metadata.len() > limits.most as u64 {
        return Ok(Input { content: Content::TooLong, stamp: None });
    }
    read_unchanged(path, &file, &file, limits)
}

/// Reads a regular file, and makes sure that nobody wrote to it meanwhile.
fn read_unchanged(
    path: &Path,
    file: &File,
    reader: impl Read,
    limits: Limits,
) -> Result<Input, Trouble> {
    let stamp = || file.metadata().map(|metadata| Stamp::of(&metadata)).map_err(with_path(path));
    let before = stamp()?;
    let content = content(reader, limits).map_err(with_path(path))?;
    let length = match &content {
        Content::Bytes(bytes) => bytes.len() as u64,
        Content::TooLong => limits.most as u64 + 1,
        Content::Beginning(_) => before.length,
    };
    if before != stamp()? || length != before.length {
        return failed(format!("{}: the file changed while it was read", shown(path)));
    }
    Ok(Input { content, stamp: Some(before) })
}

fn content(reader: impl Read, limits: Limits) -> io::Result<Content> {
    let mut bytes = Vec::new();
    // One byte more than may be there is enough to know.
    let mut reader = reader.take(limits.most as u64 + 1);
    reader.by_ref().take(BEGINNING).read_to_end(&mut bytes)?;
    if bytes.len() as u64 == BEGINNING && (limits.settled)(&bytes) {
        return Ok(Content::Beginning(bytes));
    }
    reader.read_to_end(&mut bytes)?;
    Ok(if bytes.len() > limits.most { Content::TooLong } else { Content::Bytes(bytes) })
}

#[cfg(test)]
mod tests {
    use super::*;
    use std::io::Write;
    use std::path::PathBuf;

    /// Does something to the file once the first bytes of it have been read.
    struct Meddler<'f, F: FnMut()>(&'f File, Option<F>);

    impl<F: FnMut()> Read for Meddler<'_, F> {
        fn read(&mut self, buffer: &mut [u8]) -> io::Result<usize> {
            let few = buffer.len().min(100);
            let count = self.0.read(&mut buffer[..few])?;
            if let Some(mut meddle) = self.1.take() {
                meddle();
            }
            Ok(count)
        }
    }

    fn file_of_940_bytes(name: &str) -> PathBuf {
        let path = std::env::temp_dir().join(format!("ach-input-{}-{name}", std::process::id()));
        std::fs::write(&path, [b'9'; 940]).unwrap();
        path
    }

    fn read_while(path: &Path, meddle: impl FnMut()) -> Result<usize, String> {
        let file = File::open(path).unwrap();
        let limits = Limits::up_to(1_000);
        let outcome = read_unchanged(path, &file, Meddler(&file, Some(meddle)), limits);
        std::fs::remove_file(path).unwrap();
        match outcome.map(|input| input.content) {
            Ok(Content::Bytes(bytes)) => Ok(bytes.len()),
            Ok(_) => panic!("940 bytes are not too long"),
            Err(Trouble::Failed(words)) => Err(words),
            Err(_) => panic!("only a failure is expected"),
        }
    }

    #[test]
    fn a_file_that_stays_is_read() {
        let path = file_of_940_bytes("stays");
        assert_eq!(read_while(&path, || ()), Ok(940));
    }

    #[test]
    fn a_file_that_shrinks_or_grows_is_a_failure() {
        let path = file_of_940_bytes("shrinks");
        let shrink = || File::options().write(true).open(&path).unwrap().set_len(188).unwrap();
        let words = read_while(&path, shrink).unwrap_err();
        assert!(words.ends_with("the file changed while it was read"), "{words}");

        let path = file_of_940_bytes("grows");
        let grow = || File::options().append(true).open(&path).unwrap().write_all(b"9").unwrap();
        let words = read_while(&path, grow).unwrap_err();
        assert!(words.ends_with("the file changed while it was read"), "{words}");
    }

    #[test]
    fn a_file_that_is_rewritten_in_its_length_is_a_failure() {
        let path = file_of_940_bytes("rewritten");
        // Clocks of files are coarse: the old time lies well before the new one.
        let long_ago = std::time::UNIX_EPOCH + std::time::Duration::from_secs(1_000_000_000);
        File::options().write(true).open(&path).unwrap().set_modified(long_ago).unwrap();
        let rewrite = || File::options().write(true).open(&path).unwrap().write_all(b"1").unwrap();
        let words = read_while(&path, rewrite).unwrap_err();
        assert!(words.ends_with("the file changed while it was read"), "{words}");
    }

    #[test]
    fn no_more_is_read_than_needed() {
        let mut endless = io::repeat(b'9').take(5_000);
        let limits = Limits::up_to(940);
        assert!(matches!(content(&mut endless, limits).unwrap(), Content::TooLong));
        assert_eq!(endless.limit(), 5_000 - 941);
        let just = content(io::repeat(b'9').take(940), limits).unwrap();
        assert!(matches!(just, Content::Bytes(bytes) if bytes.len() == 940));
        // What the first bytes settle is not read on.
        let limits = Limits { most: 1 << 30, settled: |bytes| bytes.starts_with(b"9") };
        let mut endless = io::repeat(b'9').take(1 << 40);
        let beginning = content(&mut endless, limits).unwrap();
        assert!(matches!(beginning, Content::Beginning(bytes) if bytes.len() == 1 << 20));
        assert_eq!(endless.limit(), (1 << 40) - (1 << 20));
    }
}
