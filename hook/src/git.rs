//! Git: which program it is, the environment in which it runs, and its version.

use crate::failure::{failed, OrFail, Result};
use crate::text::printable;
use std::collections::BTreeMap;
use std::env;
use std::ffi::OsString;
use std::os::unix::ffi::OsStrExt;
use std::os::unix::fs::PermissionsExt;
use std::path::PathBuf;
use std::process::Command;

/// Git with the variables that it gets.
#[derive(Clone)]
pub struct Git {
    program: PathBuf,
    environment: BTreeMap<OsString, OsString>,
}

/// What a push needs of the caller's environment. Without HOME, Git would fail at a path such as
/// `~/attributes` in the server's settings.
const OF_A_PUSH: [&str; 3] = ["HOME", "GIT_OBJECT_DIRECTORY", "GIT_ALTERNATE_OBJECT_DIRECTORIES"];
/// An account can have settings in variables that begin with these words.
const OF_AN_ACCOUNT: &str = "GIT_CONFIG_GLOBAL GIT_CONFIG_PARAMETERS GIT_CONFIG_COUNT \
                             GIT_CONFIG_KEY_ GIT_CONFIG_VALUE_ XDG_CONFIG_HOME";

impl Git {
    /// The first `git` in the absolute directories of PATH that can be executed, as for `execvp`, with the
    /// caller's environment.
    pub fn find() -> Result<Self> {
        let path = env::var_os("PATH").unwrap_or_default();
        let directories = env::split_paths(&path).filter(|it| it.is_absolute());
        let is_program = |it: &PathBuf| {
            let metadata = it.metadata();
            metadata.map_or(false, |it| it.is_file() && it.permissions().mode() & 0o111 != 0)
        };
        let program = directories.map(|it| it.join("git")).find(is_program);
        let program = program.or_fail("there is no git on the PATH")?;
        let git = Self { program, environment: env::vars_os().collect() };
        // (the objects as they are, not what refs/replace/ shows instead)
        Ok(git.with("GIT_NO_REPLACE_OBJECTS", "1"))
    }

    /// In the repository of a push, as receive-pack has set it up for a hook, with the push's objects in a
    /// quarantine. Git gets no other variable: neither the account's settings, nor a file to write a trace
    /// into (`GIT_TRACE`), nor libraries (`LD_PRELOAD`).
    pub fn in_push() -> Result<Self> {
        let mut git = Self::find()?;
        git.environment.retain(|name, _| OF_A_PUSH.iter().any(|it| name == it));
        let directory = env::var_os("GIT_DIR").unwrap_or_else(|| ".".into());
        let git = git.with("GIT_DIR", directory).with("GIT_NO_REPLACE_OBJECTS", "1");
        // (in a partial clone, too, an object that is missing is missing)
        Ok(git.with("GIT_NO_LAZY_FETCH", "1").with("GIT_CONFIG_GLOBAL", "/dev/null"))
    }

    /// With the settings of the caller's account and environment. (Git says their scope.)
    pub fn with_all_settings(&self) -> Self {
        let mut git = self.without("GIT_CONFIG_GLOBAL");
        git.environment.extend(env::vars_os().filter(|(name, _)| {
            OF_AN_ACCOUNT.split(' ').any(|it| name.as_bytes().starts_with(it.as_bytes()))
        }));
        git
    }

    pub fn with(&self, name: &str, value: impl Into<OsString>) -> Self {
        let mut git = self.clone();
        git.environment.insert(name.into(), value.into());
        git
    }

    /// Without these variables, which are separated by spaces.
    pub fn without(&self, names: &str) -> Self {
        let mut git = self.clone();
        git.environment.retain(|name, _| names.split(' ').all(|it| name != it));
        git
    }

    /// A command that runs Git with these words, which are separated by spaces.
    pub fn command(&self, words: &str) -> Command {
        let mut command = Command::new(&self.program);
        command.env_clear().envs(&self.environment).args(words.split(' '));
        command
    }
}

/// Fails if the version in a line `version 2.39.5` that Git traced is too old: before 2.39 Git can believe a
/// tag that calls a commit a blob, and then lists no tree of it.
pub fn check_version(traced: &[u8]) -> Result<()> {
    let mut lines = traced.split(|byte| *byte == b'\n');
    let version = lines.find_map(|line| line.strip_prefix(b"version "));
    let version = version.or_fail("Git does not trace its version: it has to be 2.39 or later")?;
    let version = printable(version);
    let numbers = version.split(|it: char| !it.is_ascii_digit());
    if numbers.map_while(|it| it.parse::<u32>().ok()).lt([2, 39]) {
        return failed(format!("git version {version} is too old: it has to be 2.39 or later"));
    }
    Ok(())
}
