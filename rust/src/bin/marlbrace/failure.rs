//! What ends the command without its work done.
use marlbrace::Refusal;
use std::io;
use std::process::ExitCode;

pub enum Failure {
    /// Words that it does not take.
    Usage(String),
    /// What went wrong, and where.
    Wrong(String),
    /// Nobody reads what is written, as in a pipe to head.
    Unread,
}

impl Failure {
    pub fn refused(place: &str, no: Refusal) -> Failure {
        let why = match no {
            Refusal::OverLimit | Refusal::NoRoom => "there are more than 2,097,152 networks".to_string(),
            Refusal::WrongFamily => "there are networks of two families, and all have to be of one".to_string(),
            _ => no.to_string(),
        };
        Failure::Wrong(format!("{place} refused: {why} ({no:?}, {} in docs/REFUSALS.md)", no.number()))
    }

    pub fn system(place: &str, error: io::Error) -> Failure {
        Failure::Wrong(format!("{place}: {error}"))
    }

    /// Says it on standard error, in one line. Where that cannot be written the status is all that is left.
    pub fn say(self) -> ExitCode {
        use io::Write;
        let mut out = io::stderr();
        let (line, status) = match self {
            Failure::Usage(what) => (format!("{what}; --help prints what it takes"), 2),
            Failure::Wrong(what) => (what, 1),
            Failure::Unread => return ExitCode::from(1),
        };
        let _ = writeln!(out, "marlbrace: {line}");
        ExitCode::from(status)
    }
}
