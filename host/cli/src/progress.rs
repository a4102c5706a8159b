//! A line on the terminal for work that takes longer than a second.

use std::io::{self, IsTerminal, Write};
use std::sync::mpsc::{channel, RecvTimeoutError, Sender};
use std::thread::JoinHandle;
use std::time::{Duration, Instant};

const PATIENCE: Duration = Duration::from_secs(1);
const CLEARED: &str = "\r\x1b[K";

/// Does the work, and speaks of it on the terminal if it takes long.
pub fn watched<T>(doing: &str, name: &str, work: impl FnOnce() -> T) -> T {
    let _progress = Progress::of(format!("ach: {doing} {name}"));
    work()
}

/// Says what is being done until it is dropped.
struct Progress {
    speaker: Option<(Sender<()>, JoinHandle<()>)>,
}

impl Progress {
    /// Speaks on standard error, if somebody watches there.
    fn of(what: String) -> Self {
        if io::stderr().is_terminal() {
            Progress::on(io::stderr(), what, PATIENCE)
        } else {
            Progress { speaker: None }
        }
    }

    fn on(to: impl Write + Send + 'static, what: String, patience: Duration) -> Self {
        let (stop, stopped) = channel();
        let speak = move || {
            let ends = || stopped.recv_timeout(patience) != Err(RecvTimeoutError::Timeout);
            speak(to, &what, ends);
        };
        // Work without a progress line is better than no work.
        let thread = std::thread::Builder::new().spawn(speak).ok();
        Progress { speaker: thread.map(|thread| (stop, thread)) }
    }
}

fn speak(mut to: impl Write, what: &str, ends: impl Fn() -> bool) {
    let start = Instant::now();
    let mut spoken = false;
    while !ends() {
        let _ = write!(to, "{CLEARED}{what}, {} s", start.elapsed().as_secs());
        let _ = to.flush();
        spoken = true;
    }
    if spoken {
        let _ = write!(to, "{CLEARED}");
    }
}

impl Drop for Progress {
    fn drop(&mut self) {
        if let Some((stop, thread)) = self.speaker.take() {
            drop(stop);
            let _ = thread.join();
        }
    }
}

#[cfg(test)]
mod tests {
    use super::*;
    use std::sync::{Arc, Mutex};

    #[derive(Clone, Default)]
    struct Screen(Arc<Mutex<Vec<u8>>>);

    impl Write for Screen {
        fn write(&mut self, bytes: &[u8]) -> io::Result<usize> {
            self.0.lock().unwrap().extend(bytes);
            Ok(bytes.len())
        }

        fn flush(&mut self) -> io::Result<()> {
            Ok(())
        }
    }

    #[test]
    fn quick_work_is_done_in_silence() {
        let screen = Screen::default();
        drop(Progress::on(screen.clone(), "checking".into(), Duration::from_secs(60)));
        assert_eq!(*screen.0.lock().unwrap(), b"");
    }

    #[test]
    fn long_work_is_spoken_of_and_the_line_cleared() {
        let screen = Screen::default();
        let progress = Progress::on(screen.clone(), "checking".into(), Duration::from_millis(10));
        while screen.0.lock().unwrap().is_empty() {
            std::thread::sleep(Duration::from_millis(5));
        }
        drop(progress);
        let said = String::from_utf8(screen.0.lock().unwrap().clone()).unwrap();
        assert!(said.starts_with("\r\x1b[Kchecking, 0 s"), "{said:?}");
        assert!(said.ends_with(CLEARED), "{said:?}");
    }
}
