//! The settings `names.*` of the repository and the system. Those of the account that pushes and of its
//! environment are ignored.

use crate::child::run;
use crate::failure::{failed, Failure, Result};
use crate::git::{check_version, Git};
use crate::limits::Limits;
use crate::text::printable;
use crate::verdict::{LENT, OLD};
use std::collections::BTreeSet;

/// The rules by which names are checked, and the limits of the check.
#[derive(Clone, PartialEq)]
pub struct Settings {
    /// The file systems to protect, for `check_push trees --protect`.
    pub protect: String,
    /// The names that are checked without windows.
    pub accept: Vec<String>,
    /// Whether references below refs/replace/ are allowed.
    pub replace: bool,
    /// Whether to trust what other repositories lend, because it was checked there.
    pub alternate_refs: bool,
    pub limits: Limits,
    /// A line for each setting that is ignored.
    pub ignored: BTreeSet<String>,
}

/// A value, or what is wrong with it.
type Valid<T> = std::result::Result<T, String>;

impl Default for Settings {
    fn default() -> Self {
        Self {
            protect: "windows,hfs,ntfs".into(),
            accept: Vec::new(),
            replace: false,
            alternate_refs: false,
            limits: Limits { seconds: 60, megabytes: 1024 },
            ignored: BTreeSet::new(),
        }
    }
}

/// What `git config` prints: each setting as its scope, a NUL, its key, perhaps a newline and a value, and a
/// NUL. It also writes Git's version to standard error, which is checked. (`git version` would be one more
/// process.)
pub fn read_config(git: &Git) -> Result<Vec<u8>> {
    let git = git.with("GIT_TRACE2", "1").with("GIT_TRACE2_BRIEF", "1");
    let command = git.command("config --null --show-scope --get-regexp ^names\\.");
    let mut ended = run("git config", command)?;
    // (its status is 1 if there is no such setting)
    if ended.status.success() || ended.status.code() == Some(1) && ended.output.is_empty() {
        return check_version(&ended.said).map(|()| ended.output);
    }
    let lines = ended.said.split_inclusive(|byte| *byte == b'\n');
    let is_message = |it: &&[u8]| it.starts_with(b"fatal: ") || it.starts_with(b"error: ");
    ended.said = lines.filter(is_message).collect::<Vec<_>>().concat();
    Err(Failure::Ended(ended))
}

impl Settings {
    /// The words of `git rev-list` for what the server has already.
    pub fn old(&self) -> String {
        format!("{OLD}{}", if self.alternate_refs { LENT } else { "" })
    }

    /// Reads what `git config` printed. A setting that is unknown may be misspelled, and so is a failure.
    pub fn of(printed: &[u8]) -> Result<Self> {
        let mut settings = Self::default();
        let mut parts = printed.split(|byte| *byte == 0);
        while let (Some(scope), Some(setting)) = (parts.next(), parts.next()) {
            let mut words = setting.splitn(2, |byte| *byte == b'\n');
            let (key, value) = (printable(words.next().unwrap_or_default()), words.next());
            if matches!(scope, b"system" | b"local" | b"worktree") {
                let set = settings.set(&key, value);
                set.or_else(|what| failed(format!("the setting {key} {what}")))?;
                continue;
            }
            let scope = printable(scope);
            settings.ignored.insert(format!("The setting {key} with the scope {scope} is ignored: set it in the repository, or with git config --system"));
        }
        Ok(settings)
    }

    /// Applies a setting, or says what is wrong with it.
    pub fn set(&mut self, key: &str, value: Option<&[u8]>) -> Valid<()> {
        let text = |it| std::str::from_utf8(it).map_err(|_| "isn't UTF-8");
        let given = value.ok_or("has no value").and_then(text);
        match key {
            "names.protect" => self.protect = list(given?)?,
            "names.accept" if given?.contains('\n') => return Err("has a newline".into()),
            "names.accept" => self.accept.push(given?.into()),
            // (a key without a value is true to Git)
            "names.replace" => self.replace = boolean(value.unwrap_or(b"true"))?,
            "names.alternaterefs" => self.alternate_refs = boolean(value.unwrap_or(b"true"))?,
            "names.seconds" => self.limits.seconds = number(given?)?,
            "names.megabytes" => self.limits.megabytes = number(given?)?,
            _ => return Err("is unknown".into()),
        }
        Ok(())
    }
}

/// A list of file systems, as `check_push trees --protect` reads it.
fn list(list: &str) -> Valid<String> {
    if list == "none" || list.split(',').all(|it| matches!(it, "windows" | "hfs" | "ntfs")) {
        return Ok(list.into());
    }
    Err(format!("is \"{list}\": give windows, hfs or ntfs, separated by commas, or none"))
}

/// A value that git-config(1) has for true or false.
fn boolean(value: &[u8]) -> Valid<bool> {
    match &value.to_ascii_lowercase()[..] {
        b"true" | b"yes" | b"on" | b"1" => Ok(true),
        b"false" | b"no" | b"off" | b"0" | b"" => Ok(false),
        _ => Err("is neither true nor false".into()),
    }
}

fn number(value: &str) -> Valid<u64> {
    match value.parse() {
        Ok(number @ 1..=1_000_000_000) => Ok(number),
        _ => Err(format!("is \"{value}\": give a number from 1 to 1000000000")),
    }
}
