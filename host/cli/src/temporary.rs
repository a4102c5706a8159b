//! A result that is not yet in its place. Where the system can do that, it has no name until then,
//! so that nothing is left of a run that ends before.

use crate::system;
use std::ffi::OsStr;
use std::fs::{self, DirEntry, File, OpenOptions};
use std::io::{self, ErrorKind};
use std::os::unix::fs::OpenOptionsExt;
use std::path::{Path, PathBuf};

pub struct Temporary {
    pub file: File,
    place: PathBuf,
    /// Its name beside the place while it has one.
    name: Option<PathBuf>,
}

const MOST_TRIES: u32 = 1_000;

impl Temporary {
    /// An empty file that nobody else may read.
    pub fn beside(place: &Path) -> io::Result<Self> {
        let temporary = match system::unnamed_file(folder_of(place)) {
            Some(file) => Temporary { file, place: place.into(), name: None },
            None => Temporary::named(place)?,
        };
        // The lock is for `leftovers`. Without one they are spoken of too early, and no more.
        let _ = temporary.file.try_lock();
        Ok(temporary)
    }

    /// For systems that have no files without a name: while it has one, signals wait.
    fn named(place: &Path) -> io::Result<Self> {
        system::hold_signals();
        let create =
            |path: &Path| OpenOptions::new().write(true).create_new(true).mode(0o600).open(path);
        let (name, file) = under_free_name(place, create)?;
        Ok(Temporary { file, place: place.into(), name: Some(name) })
    }

    /// Puts it where nothing is. A link, unlike a renaming, never replaces a file, not even one that
    /// has just appeared.
    pub fn put_new(&mut self) -> io::Result<()> {
        match &self.name {
            None => system::give_name(&self.file, &self.place),
            Some(name) => fs::hard_link(name, &self.place),
        }
    }

    /// Puts it there whatever is there. It can be renamed only from a name, so it has one between
    /// two calls of the system.
    pub fn put_over(&mut self) -> io::Result<()> {
        if self.name.is_none() {
            let give_name = |path: &Path| system::give_name(&self.file, path);
            self.name = Some(under_free_name(&self.place, give_name)?.0);
        }
        if let Some(name) = &self.name {
            fs::rename(name, &self.place)?;
        }
        self.name = None;
        Ok(())
    }

    fn remove(&mut self) {
        if let Some(name) = self.name.take() {
            let _ = fs::remove_file(name);
        }
    }
}

/// The last moment for a signal to end the run, before any of its results is put into its place.
/// From here on they wait until its end, so that a run that is ended by one has changed nothing.
pub fn heed_signals(results: &mut [&mut Temporary]) -> io::Result<()> {
    system::hold_signals();
    if !system::signal_waits() {
        return Ok(());
    }
    for result in results {
        result.remove();
    }
    system::release_signals();
    Err(io::Error::other("a signal came; nothing was changed"))
}

impl Drop for Temporary {
    fn drop(&mut self) {
        self.remove();
    }
}

/// The first name of this process that is free, and what was made under it.
fn under_free_name<T>(
    place: &Path,
    make: impl Fn(&Path) -> io::Result<T>,
) -> io::Result<(PathBuf, T)> {
    for attempt in 0..MOST_TRIES {
        let path = place.with_file_name(format!(".ach-{}-{attempt}", std::process::id()));
        match make(&path) {
            Err(error) if error.kind() == ErrorKind::AlreadyExists => {}
            made => return made.map(|made| (path, made)),
        }
    }
    Err(io::Error::other("no temporary file can be made beside it"))
}

pub fn folder_of(path: &Path) -> &Path {
    match path.parent() {
        Some(parent) if !parent.as_os_str().is_empty() => parent,
        _ => Path::new("."),
    }
}

/// The temporary files beside a place that were left by runs that were killed.
pub fn leftovers(place: &Path) -> Vec<PathBuf> {
    let entries = fs::read_dir(folder_of(place)).into_iter().flatten().flatten();
    let mut left: Vec<PathBuf> = entries
        .filter(is_temporary)
        .map(|entry| entry.path())
        .filter(|path| is_left(path))
        .collect();
    left.sort();
    left
}

fn is_temporary(entry: &DirEntry) -> bool {
    has_temporary_name(&entry.file_name()) && entry.file_type().is_ok_and(|kind| kind.is_file())
}

fn has_temporary_name(name: &OsStr) -> bool {
    let numbers = name.to_str().and_then(|name| name.strip_prefix(".ach-")?.split_once('-'));
    let is_number = |text: &str| !text.is_empty() && text.bytes().all(|byte| byte.is_ascii_digit());
    numbers.is_some_and(|(process, attempt)| is_number(process) && is_number(attempt))
}

/// Whoever works on a temporary file has it locked. The number in its name would not tell: another
/// machine's process may have it, or a later one.
fn is_left(path: &Path) -> bool {
    File::open(path).is_ok_and(|file| file.try_lock().is_ok()) && path.exists()
}
