//! The arguments of the scan.

use crate::failure::{failed, Result};
use crate::finding::split_once;
use crate::text::printable;
use std::ffi::{OsStr, OsString};
use std::os::unix::ffi::OsStrExt;

#[derive(Default)]
#[allow(clippy::struct_excessive_bools)]
pub struct Options {
    /// Options that are called as settings of the hook, and have such values.
    pub rules: Vec<(&'static str, OsString)>,
    /// Whether the hook's settings count too.
    pub settings: bool,
    pub index: bool,
    pub copy: Option<OsString>,
    pub to_accept: bool,
    pub summary: bool,
    /// A directory, or revisions.
    pub words: Vec<OsString>,
}

pub const HELP: &str = "\
Checks the names in the Git repository of DIRECTORY, or of the current one:

    git scan-names [OPTION..] [DIRECTORY | REVISION..]

Prints a line for each name that is not allowed, with its path (of identical
directories one path). Without REVISION it checks the names of all refs, all
names in their history, and the submodules in each .gitmodules file. With
REVISION it checks the names and the submodules in the history that git rev-list
selects. REVISION is a commit, a range (v1..v2, ^v1), --all, --branches, --tags,
--remotes, --glob, --exclude or --not.

    --index           checks what git commit would commit, and no history
    --copy SOURCE     checks a copy of the repository with this path or URL,
                      which you need not trust, and removes the copy
    --protect LIST    the file systems to protect, separated by commas:
                      windows, hfs and ntfs, or none. The default is all three
    --accept NAMES    accepts names that only Windows forbids. Slashes separate
                      them: aux.c/con.h accepts these two. It can be repeated
    --settings        begins with names.protect and names.accept of the
                      repository and the system, as the hook does
    --to-accept       prints the commands that make the hook accept the names
                      that only Windows forbids; the others on standard error
    --summary         prints how many lines there are for each reason
    --version         prints the version
    -h, --help        prints this text

The status is 0 if all names are allowed, 1 if one is not, and 2 if the scan
failed, nothing is selected, or a reference is broken. It says nothing about
what files contain, or about the repository's hooks and settings.
";

/// Reads the arguments. Returns nothing if they ask for the help. Options of `git rev-list` that don't select
/// commits are unknown: with --quiet, for example, it would list nothing, and everything would seem clean.
pub fn parse(mut words: impl Iterator<Item = OsString>) -> Result<Option<Options>> {
    let mut options = Options::default();
    while let Some(word) = words.next() {
        let (option, value) = match split_once(word.as_bytes(), b'=') {
            Some((option, value)) if option.starts_with(b"--") => (option, Some(value)),
            _ => (word.as_bytes(), None),
        };
        let mut given = |what| {
            let value = value.map(|it| OsStr::from_bytes(it).to_owned()).or_else(|| words.next());
            let needed = || misused(format!("{} needs {what}", printable(option)));
            value.filter(|it| !it.is_empty()).map_or_else(needed, Ok)
        };
        match (option, value) {
            (b"-h" | b"--help", None) => return Ok(None),
            (b"--protect", _) => options.rules.push(("protect", given("a list")?)),
            (b"--accept", _) => options.rules.push(("accept", given("names")?)),
            (b"--copy", _) => options.copy = Some(given("a path or a URL")?),
            (b"--settings", None) => options.settings = true,
            (b"--index", None) => options.index = true,
            (b"--to-accept", None) => options.to_accept = true,
            (b"--summary", None) => options.summary = true,
            (b"--all" | b"--not", None)
            | (b"--branches" | b"--tags" | b"--remotes", _)
            | (b"--glob" | b"--exclude", Some(_)) => options.words.push(word),
            _ if option.starts_with(b"-") => {
                return misused(format!("unknown option \"{}\"", printable(word.as_bytes())))
            }
            _ => options.words.push(word),
        }
    }
    match (options.copy.is_some(), options.index, options.words.is_empty()) {
        (true, true, _) => misused("--index and --copy don't go together"),
        (true, _, false) => misused("--copy accepts no revisions"),
        _ => Ok(Some(options)),
    }
}

/// A failure that says where to look.
pub fn misused<T>(what: impl Into<String>) -> Result<T> {
    failed(what.into() + " (git scan-names -h lists the options)")
}
