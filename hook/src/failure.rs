//! Why a check ended without a verdict, as a value, and as people read it.

use crate::limits::Limits;
use crate::text::{printable, say};
use std::io::{self, ErrorKind};
use std::os::unix::process::ExitStatusExt;
use std::process::ExitStatus;

#[derive(Debug)]
pub enum Failure {
    /// A process ended in a way that it may not.
    Ended(Ended),
    /// Something could not be done, for the system's reason.
    System(String, io::Error),
    /// Anything else.
    Other(String),
}

/// A process that has ended.
#[derive(Debug)]
pub struct Ended {
    pub process: &'static str,
    pub status: ExitStatus,
    /// What it printed, if that was read until its end.
    pub output: Vec<u8>,
    /// What it wrote to standard error.
    pub said: Vec<u8>,
}

/// How many bytes of what a process wrote to standard error are shown: the last ones.
const LONGEST_SAID: usize = 1000;
const SIGPIPE: i32 = 13;
const SIGXCPU: i32 = 24;

const COPY_IT: &str =
    "To scan a copy of a repository that you don't own or trust: git scan-names --copy PATH";
const FULL_CLONE: &str =
    "A commit is missing. If your clone is shallow, complete it first: git fetch --unshallow";

pub type Result<T> = std::result::Result<T, Failure>;

pub fn failed<T>(what: impl Into<String>) -> Result<T> {
    Err(Failure::Other(what.into()))
}

/// Says what could not be done, or what is missing.
pub trait OrFail<T> {
    fn or_fail(self, what: impl Into<String>) -> Result<T>;
}

impl<T> OrFail<T> for io::Result<T> {
    fn or_fail(self, what: impl Into<String>) -> Result<T> {
        self.map_err(|error| Failure::System(what.into(), error))
    }
}

impl<T> OrFail<T> for Option<T> {
    fn or_fail(self, what: impl Into<String>) -> Result<T> {
        self.map_or_else(|| failed(what), Ok)
    }
}

impl Failure {
    /// Whether it is most likely a consequence: the process that should have read on has failed.
    pub fn is_secondary(&self) -> bool {
        match self {
            Self::System(_, error) => error.kind() == ErrorKind::BrokenPipe,
            Self::Ended(ended) => ended.status.signal() == Some(SIGPIPE),
            Self::Other(_) => false,
        }
    }

    /// Prints it after these words, and what may help. There may be limits, as the settings have them.
    pub fn say(&self, before: &str, limits: Option<Limits>) {
        let what = match self {
            Self::Ended(ended) => ended.what(),
            Self::System(what, error) => format!("{what}: {error}"),
            Self::Other(what) => what.clone(),
        };
        say(&format!("{before}: {what}"));
        if let Some(help) = self.help(&what, limits) {
            say(&help);
        }
    }

    /// What may help. Apart from a limit of time, that depends on what Git or the system say.
    fn help(&self, what: &str, limits: Option<Limits>) -> Option<String> {
        let more_time = |Limits { seconds, .. }| {
            format!("A process may use {seconds} s, and one more for each 4000 objects of the push: an administrator can raise names.seconds.")
        };
        let more_memory = |Limits { megabytes, .. }| {
            format!("A process may use {megabytes} MB of memory: an administrator can raise names.megabytes.")
        };
        match self {
            Self::Ended(it) if it.status.signal() == Some(SIGXCPU) => limits.map(more_time),
            _ if what.to_lowercase().contains("memory") => limits.map(more_memory),
            _ if what.contains("Failed to traverse parents of commit") => Some(FULL_CLONE.into()),
            _ if what.contains("dubious ownership") => Some(COPY_IT.into()),
            _ => None,
        }
    }
}

impl Ended {
    /// Fails, unless the status is 0.
    pub fn succeeded(self) -> Result<Self> {
        if self.status.success() {
            Ok(self)
        } else {
            Err(Failure::Ended(self))
        }
    }

    /// How it ended, and the end of what it said.
    fn what(&self) -> String {
        let Self { process, status, said, .. } = self;
        let said = printable(&said[said.len().saturating_sub(LONGEST_SAID)..]);
        let said = said.strip_prefix(&format!("{process}: ")).unwrap_or(&said);
        let colon = if said.is_empty() { "" } else { ": " };
        match (status.code(), status.signal().unwrap_or_default()) {
            // (one that may not even warn)
            (Some(0), _) => format!("{process}{colon}{said}"),
            (Some(code), _) => format!("{process} failed (status {code}){colon}{said}"),
            (None, SIGXCPU) => format!("{process} needs too much processor time"),
            (None, signal) => format!("{process} failed (signal {signal}){colon}{said}"),
        }
    }
}
