//! Putting a result into its place, all of it or nothing.
//!
//! A command calls [`Place::open`] before it reads anything, so that a place that cannot be had is
//! told of early and a file that is to be replaced is locked meanwhile, and [`Place::put`] as its
//! last step, with the words for what it has done.

use crate::input::Stamp;
use crate::lock::Locked;
use crate::options::Target;
use crate::progress::watched;
use crate::stdout;
use crate::temporary::{folder_of, heed_signals, leftovers, Temporary};
use crate::trouble::{failed, plain, shown, warn, with_path, Trouble};
use std::fs::{self, File, Metadata, Permissions};
use std::io::{self, ErrorKind, Write};
use std::os::unix::fs::{fchown, MetadataExt, PermissionsExt};
use std::path::{Path, PathBuf};

/// Payments are nobody else's business unless somebody says so.
const OWNER_ALONE: u32 = 0o600;

/// No system follows more links than that from one name to a file.
const MOST_LINKS: u32 = 40;

pub struct Place {
    name: String,
    goal: Goal,
}

enum Goal {
    StandardOutput,
    File(Spot),
}

enum Spot {
    /// Nothing is there.
    Free {
        path: PathBuf,
        mode: u32,
        force: bool,
    },
    Taken {
        old: Locked,
        mode: Option<u32>,
        in_place: bool,
    },
}

impl Place {
    /// Refuses what is plainly no place for the result, and locks the file that it replaces.
    pub fn open(target: &Target) -> Result<Self, Trouble> {
        let goal = match target {
            Target::StandardOutput => Goal::StandardOutput,
            Target::File { path, force, mode } => Goal::File(Spot::of(path, *force, *mode)?),
            Target::InPlace(path) => Goal::File(Spot::in_place(path)?),
        };
        if let Goal::File(spot) = &goal {
            tell_of_leftovers(spot.path());
        }
        Ok(Place { name: target.name(), goal })
    }

    pub fn name(&self) -> &str {
        &self.name
    }

    /// Puts the result there, and then says what was done. `read` is the stamp of the file that
    /// the result was made of. Only what cannot be put is trouble: words that nobody hears do not
    /// undo what was done.
    pub fn put(self, bytes: &[u8], read: Option<Stamp>, words: &str) -> Result<(), Trouble> {
        self.put_with(bytes, read, None, words)
    }

    /// As `put`, with a second result, which goes to a name that is free: both or none of them. The
    /// second gets its name first, so that nobody has the first without it.
    pub fn put_with(
        self,
        bytes: &[u8],
        read: Option<Stamp>,
        second: Option<Ready>,
        words: &str,
    ) -> Result<(), Trouble> {
        match self.goal {
            Goal::StandardOutput => {
                watched("writing", &self.name, || stdout::write(bytes))?;
                second.map_or(Ok(()), |second| second.put(None))?;
                let _ = io::stderr().lock().write_all(words.as_bytes());
            }
            Goal::File(spot) => {
                let result = spot.ready(bytes)?;
                match second {
                    None => result.put(read)?,
                    Some(second) => result.put_behind(second, read)?,
                }
                if let Err(trouble) = stdout::write(words.as_bytes()) {
                    warn(&format!("{} is written all the same; {trouble}", self.name));
                }
            }
        }
        Ok(())
    }
}

/// The place of a second result: a name that is free.
pub struct SecondPlace(Spot);

impl SecondPlace {
    pub fn open(path: &Path) -> Result<Self, Trouble> {
        if fs::symlink_metadata(path).is_ok() {
            return failed(format!("{}: there is such a file already, and it stays", shown(path)));
        }
        tell_of_leftovers(path);
        Ok(SecondPlace(Spot::Free { path: path.into(), mode: OWNER_ALONE, force: false }))
    }

    pub fn ready(self, bytes: &[u8]) -> Result<Ready, Trouble> {
        self.0.ready(bytes)
    }
}

/// A result that is on the disk and wants but its name.
pub struct Ready {
    spot: Spot,
    new: Temporary,
}

impl Ready {
    fn put(mut self, read: Option<Stamp>) -> Result<(), Trouble> {
        heed_signals(&mut [&mut self.new]).map_err(with_path(self.spot.path()))?;
        self.give_name(read)
    }

    /// Puts both or none: where this one cannot be put, the other's name is taken back.
    fn put_behind(mut self, mut other: Ready, read: Option<Stamp>) -> Result<(), Trouble> {
        let both = &mut [&mut other.new, &mut self.new];
        heed_signals(both).map_err(with_path(self.spot.path()))?;
        let name = other.spot.path().to_path_buf();
        other.give_name(None)?;
        self.give_name(read).inspect_err(|_| {
            let _ = fs::remove_file(name);
        })
    }

    fn give_name(mut self, read: Option<Stamp>) -> Result<(), Trouble> {
        match self.spot {
            Spot::Free { path, force, .. } => put_new(&path, force, self.new),
            Spot::Taken { old, in_place, .. } => {
                let metadata = old.metadata()?;
                still_the_same(&old, read, in_place)?;
                self.new.put_over().map_err(with_path(&old.path))?;
                tell_of_changes(&old.path, &metadata, &self.new.file);
                sync_folder(&old.path);
                Ok(())
            }
        }
    }
}

impl Spot {
    fn of(path: &Path, force: bool, mode: Option<u32>) -> Result<Self, Trouble> {
        if !force {
            return Spot::free(path, mode);
        }
        let real = followed(path)?;
        Ok(match Locked::at(&real)? {
            Some(old) => Spot::Taken { old, mode, in_place: false },
            None => Spot::Free { path: real, mode: mode.unwrap_or(OWNER_ALONE), force },
        })
    }

    fn in_place(path: &Path) -> Result<Self, Trouble> {
        match Locked::at(&followed(path)?)? {
            Some(old) => Ok(Spot::Taken { old, mode: None, in_place: true }),
            None => failed(format!("{}: No such file or directory", shown(path))),
        }
    }

    fn free(path: &Path, mode: Option<u32>) -> Result<Self, Trouble> {
        if fs::symlink_metadata(path).is_ok() {
            return taken(path, false);
        }
        Ok(Spot::Free { path: path.into(), mode: mode.unwrap_or(OWNER_ALONE), force: false })
    }

    fn path(&self) -> &Path {
        match self {
            Spot::Free { path, .. } => path,
            Spot::Taken { old, .. } => &old.path,
        }
    }

    fn ready(self, bytes: &[u8]) -> Result<Ready, Trouble> {
        let new = match &self {
            Spot::Free { path, mode, .. } => {
                filled(path, |_| Permissions::from_mode(*mode), bytes)?
            }
            Spot::Taken { old, mode, .. } => {
                let metadata = old.metadata()?;
                filled(&old.path, |file| like(&metadata, file, *mode), bytes)?
            }
        };
        Ok(Ready { spot: self, new })
    }
}

fn put_new(path: &Path, force: bool, mut new: Temporary) -> Result<(), Trouble> {
    match new.put_new() {
        Ok(()) => {}
        Err(error) if error.kind() == ErrorKind::AlreadyExists => return taken(path, force),
        // Not every system has links.
        Err(_) if force => new.put_over().map_err(with_path(path))?,
        Err(error) => {
            let words = "where there are no links, --force puts a file there by renaming";
            return failed(format!("{}: {}; {words}", shown(path), plain(&error)));
        }
    }
    drop(new);
    sync_folder(path);
    Ok(())
}

fn taken<T>(path: &Path, force: bool) -> Result<T, Trouble> {
    let words = match force {
        true => "a file has appeared there meanwhile",
        false => "there is such a file already; --force replaces it",
    };
    failed(format!("{}: {words}", shown(path)))
}

/// Writes the bytes to a file beside the place, and waits until they are on the disk.
fn filled(
    place: &Path,
    permissions: impl FnOnce(&File) -> Permissions,
    bytes: &[u8],
) -> Result<Temporary, Trouble> {
    let mut new = Temporary::beside(place).map_err(with_path(place))?;
    let fill = |file: &mut File| {
        file.set_permissions(permissions(file))?;
        file.write_all(bytes)?;
        file.sync_all()
    };
    watched("writing", &shown(place), || fill(&mut new.file)).map_err(with_path(place))?;
    Ok(new)
}

/// Owner, group and permissions of the old file, as far as the user may give them: where the group
/// is another one, it gets no rights.
fn like(old: &Metadata, file: &File, mode: Option<u32>) -> Permissions {
    let kept = fchown(file, Some(old.uid()), Some(old.gid()))
        .or_else(|_| fchown(file, None, Some(old.gid())));
    let group = if kept.is_ok() { 0o7777 } else { 0o7707 };
    Permissions::from_mode(mode.unwrap_or(old.mode() & group))
}

/// What is replaced is what was looked at, and in place it is also what was read.
fn still_the_same(old: &Locked, read: Option<Stamp>, in_place: bool) -> Result<(), Trouble> {
    let now = old.stamp_now()?;
    let same = match read {
        Some(read) if in_place || now.is_some_and(|now| now.is_of_same_file(&read)) => {
            now == Some(read)
        }
        _ => !in_place,
    };
    if same && old.is_there()? {
        return Ok(());
    }
    failed(format!("{}: the file changed since it was read", shown(&old.path)))
}

/// What the user may not have thought of: others now see another file, or have other rights.
fn tell_of_changes(path: &Path, old: &Metadata, new: &File) {
    if old.nlink() > 1 {
        warn(&format!("{}: the file's other names still have the old content", shown(path)));
    }
    let owners = |of: &Metadata| (of.uid(), of.gid());
    if new.metadata().is_ok_and(|new| owners(&new) != owners(old)) {
        warn(&format!("{}: the old file's owner and group could not be kept", shown(path)));
    }
}

fn tell_of_leftovers(place: &Path) {
    let left = leftovers(place);
    let Some(first) = left.first() else {
        return;
    };
    let more = match left.len() {
        1 => String::new(),
        all => format!(" and {} more such files", all - 1),
    };
    let words = "left by a run that was killed, perhaps with payments in it: remove it";
    warn(&format!("{}{more}: {words}", shown(first)));
}

/// The file that a name stands for, whether it is there or not: a link stays a link.
fn followed(path: &Path) -> Result<PathBuf, Trouble> {
    let mut at = path.to_path_buf();
    if path.exists() {
        return Ok(fs::canonicalize(path).unwrap_or(at));
    }
    for _ in 0..MOST_LINKS {
        match fs::read_link(&at) {
            Ok(next) => at = folder_of(&at).join(next),
            Err(_) => return Ok(at),
        }
    }
    failed(format!("{}: too many links from one to the next", shown(path)))
}

/// So that the new name outlives a crash, too. Not every file system can do this for a folder, and
/// the file itself is on the disk by now.
fn sync_folder(path: &Path) {
    let _ = File::open(folder_of(path)).and_then(|folder| folder.sync_all());
}
