//! The calls of the system that the standard library has no name for. All unsafe code of the
//! command is in this file: each call is given values or memory of its own, and keeps none of it.

#![allow(unsafe_code)]

use std::ffi::{c_char, c_int, CString};
use std::fs::{File, OpenOptions};
use std::io;
use std::os::fd::AsRawFd;
use std::os::unix::ffi::OsStrExt;
use std::os::unix::fs::OpenOptionsExt;
use std::path::{Path, PathBuf};
use std::sync::atomic::{AtomicBool, Ordering};

extern "C" {
    fn fcntl(file: c_int, command: c_int, ...) -> c_int;
    fn linkat(
        from_folder: c_int,
        from: *const c_char,
        to_folder: c_int,
        to: *const c_char,
        flags: c_int,
    ) -> c_int;
    fn sigemptyset(set: *mut Signals) -> c_int;
    fn sigaddset(set: *mut Signals, signal: c_int) -> c_int;
    fn sigismember(set: *const Signals, signal: c_int) -> c_int;
    fn sigpending(set: *mut Signals) -> c_int;
    fn sigprocmask(how: c_int, set: *const Signals, old: *mut Signals) -> c_int;
}

const STANDARD_OUTPUT: c_int = 1;
const GET_FLAGS: c_int = 1;
/// For `linkat`: names count from the working folder, and the name linked is that of a link.
const WORKING_FOLDER: c_int = -100;
const FOLLOW: c_int = 0x400;
/// The numbers for blocking and unblocking signals.
const HOLD: c_int = if cfg!(target_os = "linux") { 0 } else { 1 };
const RELEASE: c_int = if cfg!(target_os = "linux") { 1 } else { 2 };
/// Hang-up, Ctrl-C and the polite request to end: the same numbers on every Unix.
const ENDING: [c_int; 3] = [1, 2, 15];

/// The flag for a file without a name in a folder (O_TMPFILE), on machines whose number is known.
const UNNAMED: Option<c_int> = if !cfg!(target_os = "linux") {
    None
} else if cfg!(any(target_arch = "x86_64", target_arch = "x86", target_arch = "riscv64")) {
    Some(0o20_200_000)
} else if cfg!(any(target_arch = "aarch64", target_arch = "arm")) {
    Some(0o20_040_000)
} else {
    None
};

/// A set of signals. No system's is larger, and the calls write no more than their own.
#[repr(C, align(8))]
struct Signals([u8; 128]);

impl Signals {
    fn none() -> Self {
        let mut set = Signals([0; 128]);
        // SAFETY: the set is ours alone and as large as any.
        unsafe { sigemptyset(&mut set) };
        set
    }

    fn ending() -> Self {
        let mut set = Signals::none();
        for signal in ENDING {
            // SAFETY: the set is ours alone and has been made empty; the signals exist.
            unsafe { sigaddset(&mut set, signal) };
        }
        set
    }

    fn change(&self, how: c_int) {
        // SAFETY: the set is only read, and no old one is asked for.
        unsafe { sigprocmask(how, self, std::ptr::null_mut()) };
    }
}

/// From here on a signal to end waits, in this thread and in those that it starts later.
pub fn hold_signals() {
    Signals::ending().change(HOLD);
}

/// A signal to end that waits ends the process now.
pub fn release_signals() {
    Signals::ending().change(RELEASE);
}

pub fn signal_waits() -> bool {
    let mut set = Signals::none();
    // SAFETY: the set is ours alone and as large as any.
    unsafe { sigpending(&mut set) };
    // SAFETY: the set is only read; the signals exist.
    ENDING.iter().any(|signal| unsafe { sigismember(&set, *signal) } == 1)
}

/// A file in this folder that has no name, and is gone with the process unless it gets one; nothing
/// where the system has no such files.
pub fn unnamed_file(folder: &Path) -> Option<File> {
    let mut options = OpenOptions::new();
    let file = options.write(true).mode(0o600).custom_flags(UNNAMED?).open(folder).ok()?;
    own_name(&file).exists().then_some(file)
}

fn own_name(file: &File) -> PathBuf {
    format!("/proc/self/fd/{}", file.as_raw_fd()).into()
}

/// Gives a name to a file without one. A name that is taken stays what it is.
pub fn give_name(file: &File, path: &Path) -> io::Result<()> {
    let from = CString::new(own_name(file).as_os_str().as_bytes())?;
    let to = CString::new(path.as_os_str().as_bytes())?;
    // SAFETY: both strings end with a zero byte, outlive the call, and are only read.
    let answer =
        unsafe { linkat(WORKING_FOLDER, from.as_ptr(), WORKING_FOLDER, to.as_ptr(), FOLLOW) };
    if answer == 0 {
        Ok(())
    } else {
        Err(io::Error::last_os_error())
    }
}

static CLOSED: AtomicBool = AtomicBool::new(false);

/// Whether standard output was closed when the process began.
pub fn standard_output_is_closed() -> bool {
    CLOSED.load(Ordering::Relaxed)
}

extern "C" fn look_at_standard_output() {
    // SAFETY: the call takes numbers alone.
    let flags = unsafe { fcntl(STANDARD_OUTPUT, GET_FLAGS) };
    CLOSED.store(flags == -1, Ordering::Relaxed);
}

/// Rust's own beginning puts the null device where a standard stream is closed, so the look has to
/// come before it: the system calls what stands in this section, which is sound for a function that
/// needs nothing of Rust's beginning.
#[used]
#[cfg_attr(target_vendor = "apple", link_section = "__DATA,__mod_init_func")]
#[cfg_attr(not(target_vendor = "apple"), link_section = ".init_array")]
static LOOK_FIRST: extern "C" fn() = look_at_standard_output;
