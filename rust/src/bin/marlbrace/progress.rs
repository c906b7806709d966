//! A line on a terminal that says what a run is at, once it takes over a second. A thread of its own shows it, since a call may take long.
use std::io::{stderr, IsTerminal, Write};
use std::sync::{Arc, Mutex, MutexGuard, PoisonError};
use std::thread;
use std::time::Duration;

/// How long a run is silent, and the time between two looks at what it is at.
const SILENT: Duration = Duration::from_secs(1);
const STEP: Duration = Duration::from_millis(200);

/// A line that fits on any terminal.
const WIDTH: usize = 79;

/// What is being done, empty where nothing is to be shown; and whether a line says so.
#[derive(Default)]
struct Line {
    doing: String,
    shown: bool,
}

/// Nothing where standard error is no terminal.
#[derive(Clone)]
pub struct Progress(Option<Arc<Mutex<Line>>>);

impl Progress {
    pub fn start() -> Progress {
        let progress = Progress(stderr().is_terminal().then(Arc::default));
        if progress.0.is_some() {
            let seen = progress.clone();
            thread::spawn(move || {
                thread::sleep(SILENT);
                loop {
                    seen.show();
                    thread::sleep(STEP);
                }
            });
        }
        progress
    }

    fn line(&self) -> Option<MutexGuard<'_, Line>> {
        self.0.as_ref().map(|line| line.lock().unwrap_or_else(PoisonError::into_inner))
    }

    fn show(&self) {
        if let Some(mut line) = self.line().filter(|line| !line.doing.is_empty()) {
            let _ = write!(stderr(), "\r\x1b[K{}", line.doing);
            line.shown = true;
        }
    }

    /// What is being done from now on.
    pub fn say(&self, what: impl FnOnce() -> String) {
        if let Some(mut line) = self.line() {
            line.doing = what().chars().take(WIDTH).map(|c| if c.is_control() { '?' } else { c }).collect();
        }
    }

    /// Takes the line away, until there is more to say.
    pub fn clear(&self) {
        if let Some(mut line) = self.line() {
            line.doing.clear();
            if std::mem::take(&mut line.shown) {
                let _ = write!(stderr(), "\r\x1b[K");
            }
        }
    }
}
