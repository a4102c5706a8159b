//! The file that is to be replaced, locked from before it is read until another is in its place, so
//! that of two runs on it the second one sees what the first one made of it.

use crate::input::Stamp;
use crate::progress::watched;
use crate::trouble::{failed, plain, shown, with_path, Trouble};
use std::fs::{self, File, Metadata, OpenOptions, TryLockError};
use std::io::{self, ErrorKind};
use std::path::{Path, PathBuf};
use std::time::{Duration, Instant};

/// How long another run is waited for, and how often it is looked whether it is done.
const PATIENCE: Duration = Duration::from_secs(10);
const PAUSE: Duration = Duration::from_millis(2);

/// The lock is on the file itself and not on its name, so that it holds for its other names too.
pub struct Locked {
    pub path: PathBuf,
    file: File,
}

impl Locked {
    /// Nothing, if there is no file.
    pub fn at(path: &Path) -> Result<Option<Self>, Trouble> {
        watched("waiting for", &shown(path), || Locked::within(path, PATIENCE))
    }

    fn within(path: &Path, patience: Duration) -> Result<Option<Self>, Trouble> {
        let start = Instant::now();
        loop {
            let Some(file) = open(path)? else {
                return Ok(None);
            };
            match file.try_lock() {
                Ok(()) => {
                    let locked = Locked { path: path.into(), file };
                    // Who had the lock before may have put another file there.
                    if locked.is_there()? {
                        return Ok(Some(locked));
                    }
                }
                Err(TryLockError::WouldBlock) => {}
                Err(TryLockError::Error(error)) => return no_locks(path, &error),
            }
            if start.elapsed() > patience {
                return failed(format!("{}: another run has locked the file", shown(path)));
            }
            std::thread::sleep(PAUSE);
        }
    }

    pub fn metadata(&self) -> Result<Metadata, Trouble> {
        self.file.metadata().map_err(with_path(&self.path))
    }

    /// Which file has its name now; nothing if there is none.
    pub fn stamp_now(&self) -> Result<Option<Stamp>, Trouble> {
        match fs::metadata(&self.path) {
            Ok(now) => Ok(Some(Stamp::of(&now))),
            Err(error) if error.kind() == ErrorKind::NotFound => Ok(None),
            Err(error) => Err(with_path(&self.path)(error)),
        }
    }

    /// Whether the file that is locked still has its name.
    pub fn is_there(&self) -> Result<bool, Trouble> {
        let locked = Stamp::of(&self.metadata()?);
        Ok(self.stamp_now()?.is_some_and(|now| now.is_of_same_file(&locked)))
    }
}

/// Opened for writing, the system says whether that is allowed.
fn open(path: &Path) -> Result<Option<File>, Trouble> {
    let metadata = match fs::metadata(path) {
        Err(error) if error.kind() == ErrorKind::NotFound => return Ok(None),
        metadata => metadata.map_err(with_path(path))?,
    };
    if !metadata.is_file() {
        return failed(format!("{}: only a regular file is replaced", shown(path)));
    }
    // Some may write to any file. One that nobody is meant to write to they keep as well.
    if metadata.permissions().readonly() {
        return not_writable(path);
    }
    match OpenOptions::new().write(true).open(path) {
        Err(error) if error.kind() == ErrorKind::NotFound => Ok(None),
        Err(error) if error.kind() == ErrorKind::PermissionDenied => not_writable(path),
        file => file.map(Some).map_err(with_path(path)),
    }
}

fn not_writable<T>(path: &Path) -> Result<T, Trouble> {
    let words = "Permission denied: a file is replaced only by who may write to it";
    failed(format!("{}: {words}", shown(path)))
}

fn no_locks<T>(path: &Path, error: &io::Error) -> Result<T, Trouble> {
    let words = "the file cannot be locked here, and is not replaced without a lock";
    failed(format!("{}: {words} ({}); -o takes a new name", shown(path), plain(error)))
}

#[cfg(test)]
mod tests {
    use super::*;

    #[test]
    fn a_lock_that_stays_is_not_waited_for_without_end() {
        let path = std::env::temp_dir().join(format!("ach-lock-{}", std::process::id()));
        fs::write(&path, b"READ").unwrap();
        let words =
            |outcome: Result<Option<Locked>, Trouble>| outcome.err().map(|it| it.to_string());
        let other = File::open(&path).unwrap();
        other.lock().unwrap();
        let said = words(Locked::within(&path, Duration::from_millis(20))).unwrap();
        assert!(said.ends_with("another run has locked the file"), "{said}");
        other.unlock().unwrap();
        assert_eq!(words(Locked::within(&path, Duration::ZERO)), None);
        fs::remove_file(&path).unwrap();
        assert!(matches!(Locked::within(&path, Duration::ZERO), Ok(None)));
    }
}
