//! The scan: checks the names in your own repository, by the same pipeline as a push. Git runs there as
//! usual. A repository that you don't trust is copied first.

mod options;

use crate::child::{run as run_git, Child};
use crate::failure::{failed, Failure, OrFail, Result};
use crate::finding::{id, Finding, Groups, Kind, OnFinding};
use crate::git::Git;
use crate::pipeline::{Modules, Pipeline};
use crate::settings::{read_config, Settings};
use crate::text::{printable, say};
use crate::verdict::{Report, Verdict};
use options::{misused, Options};
use std::collections::{BTreeMap, BTreeSet};
use std::env;
use std::ffi::{OsStr, OsString};
use std::fmt::Write as _;
use std::fs;
use std::io::{self, BufRead, BufReader, Write};
use std::os::unix::ffi::OsStrExt;
use std::path::{Path, PathBuf};
use std::process::{Command, Stdio};

/// This also serves what the repository hides from those who fetch, and repositories of other owners. In a
/// partial clone it would fetch what is missing, by a command of the repository, but no way to fetch is
/// allowed.
const UPLOAD: &str = "GIT_ALLOW_PROTOCOL=none GIT_NO_LAZY_FETCH=1 git -c 'safe.directory=*' \
                      -c transfer.hideRefs=!refs/ upload-pack";
/// Makes a directory that nobody else can read, and removes it when standard input ends, as when the scan
/// is killed. (Git may go on then, or only begin, and make it again.)
const KEEP: &str = "trap '' HUP INT PIPE TERM
directory=$(mktemp -d -t scan-names.XXXXXX) || exit
echo \"$directory\"
while read -r line; do :; done
gone=0
while [ -e \"$directory\" ] || [ $((gone += 1)) -lt 10 ]; do
    rm -rf -- \"$directory\"
    sleep 1
done";
/// The variables by which Git's commands would find another repository.
const OF_A_REPOSITORY: &str = "GIT_DIR GIT_WORK_TREE GIT_INDEX_FILE GIT_OBJECT_DIRECTORY \
                               GIT_ALTERNATE_OBJECT_DIRECTORIES GIT_COMMON_DIR GIT_NAMESPACE GIT_PREFIX";

const NOT_COPIED: &str = "A copy lacks what Git doesn't serve: the index, the HEADs of other worktrees, references that Git calls broken, and by a URL those that the server hides.";
const NAMES_ONLY: &str =
    "names only: all are allowed. What files contain, hooks and settings were not checked.";
const UNWRITTEN: &str = "the report could not be written";

/// Scans, or prints the help. Returns nothing if that failed.
pub fn run(program: PathBuf) -> Option<Verdict> {
    let scanned = match options::parse(env::args_os().skip(1)) {
        Ok(None) => write(options::HELP).map(|()| Verdict::Printed),
        Ok(Some(options)) => find_and_scan(program, options),
        Err(failure) => Err(failure),
    };
    scanned.map_err(|failure| failure.say("git scan-names", None)).ok()
}

/// Finds the repository, or copies it, and scans it.
fn find_and_scan(program: PathBuf, mut options: Options) -> Result<Verdict> {
    let mut git = Git::find()?;
    let copy = options.copy.as_ref().map(|source| Copy::of(&git, source)).transpose()?;
    if let Some(copy) = &copy {
        git = copy.git.clone();
        say(NOT_COPIED);
    } else if matches!(&options.words[..], [word] if Path::new(word).is_dir()) {
        let entered = options.words.drain(..).try_for_each(env::set_current_dir);
        entered.or_fail("the directory could not be entered")?;
    }
    // Commands fail instead of leaving out history that grafts or a shallow clone hide. (Git would call a
    // file that is there deprecated.)
    let git = git.with("GIT_GRAFT_FILE", "/dev/null/none").with("GIT_SHALLOW_FILE", "");
    let settings = settings(&git, &options)?;
    scan(&Pipeline { program, git, settings }, &options)
}

/// The rules by which names are checked: those of the options and, if they count, of the hook's settings.
fn settings(git: &Git, options: &Options) -> Result<Settings> {
    let printed = read_config(git)?;
    let mut settings = if options.settings { Settings::of(&printed)? } else { Settings::default() };
    for (name, value) in &options.rules {
        let set = settings.set(&format!("names.{name}"), Some(value.as_bytes()));
        set.or_else(|what| misused(format!("--{name} {what}")))?;
    }
    // (a replacement is a name like any other here: Git shows the objects as they are)
    settings.replace = true;
    Ok(settings)
}

/// Scans the repository in which Git is, and prints what is refused.
fn scan(pipeline: &Pipeline, options: &Options) -> Result<Verdict> {
    let mut groups = Groups::default();
    let verdict = check(pipeline, options, &mut |mut finding: Finding| {
        finding.tree = None; // (the list has paths)
        groups.add(finding.line(usize::MAX), finding);
    });
    // (what was found before a failure is shown, too)
    let commands_accept_all = print(&groups.all, options)?;
    match verdict? {
        Verdict::Refused if commands_accept_all => Ok(Verdict::Printed),
        Verdict::Clean(evidence) => {
            let output = fs::read_link("/proc/self/fd/1").unwrap_or_default();
            if output.starts_with("/dev") && output != Path::new("/dev/null") {
                say(NAMES_ONLY); // (to a terminal)
            }
            Ok(Verdict::Clean(evidence))
        }
        verdict => Ok(verdict),
    }
}

/// Checks what `git commit` would commit, or what the revisions select, or all references, and all that they
/// and the HEADs of all worktrees lead to.
fn check(pipeline: &Pipeline, options: &Options, found: OnFinding) -> Result<Verdict> {
    let Pipeline { git, .. } = pipeline;
    let (mut words, mut references, mut modules) =
        (options.words.clone(), None, Modules::default());
    match (options.index, words.is_empty()) {
        (true, true) => words.push(tree_of_index(git)?),
        (true, false) => return misused("--index accepts no revisions"),
        (false, false) => check_patterns(git, &words)?,
        (false, true) => {
            words.push("--all".into());
            (references, modules) = check_references(pipeline, found)?;
        }
    }
    if !selects_some(git, &words)? {
        if !options.words.is_empty() {
            return failed("the revisions select no commit, so nothing was checked");
        }
        say("the repository is empty");
        return Ok(Verdict::of(&[references, None, None]));
    }
    words.push("--".into());
    let trees = pipeline.start_trees(&words)?;
    let (trees, modules) = Pipeline::trees(trees, b"", modules, found)?;
    let submodules = pipeline.submodules(modules, found)?;
    Ok(Verdict::of(&[references, Some(trees), submodules]))
}

/// Checks the names of all references, if there are any. (Their objects are those of `--all`.)
fn check_references(pipeline: &Pipeline, found: OnFinding) -> Result<(Option<Report>, Modules)> {
    let command = "for-each-ref --format=%(objectname)%20%(objectname)%20%(refname)";
    // (Git leaves out references that it calls broken, and warns)
    let lines = output_without_warning(&pipeline.git, "git for-each-ref", command)?;
    if lines.is_empty() {
        return Ok((None, Modules::default()));
    }
    let check = pipeline.start_references()?;
    let (report, _, replacements) = Pipeline::references(check, &lines, found)?;
    Ok((Some(report), replacements))
}

/// The tree that `git commit` would commit.
fn tree_of_index(git: &Git) -> Result<OsString> {
    // (it doesn't need the work tree, of which a monitor would tell. Git 2.39 leaves out directories of a
    // sparse index, with a message and status 0)
    let command = "-c core.fsmonitor=false write-tree";
    let tree = output_without_warning(git, "git write-tree", command)?;
    let tree = tree.strip_suffix(b"\n").and_then(id).or_fail("git write-tree printed no id")?;
    let tree = OsStr::from_bytes(&tree).to_owned();
    let mut command = git.command("ls-tree --full-tree");
    command.arg(&tree);
    let is_empty = run_git("git ls-tree", command)?.succeeded()?.output.is_empty();
    if is_empty && selects_some(git, &["--all".into()])? {
        return failed("the index is empty, so nothing was checked");
    }
    Ok(tree)
}

/// Whether these words of `git rev-list` select an object.
fn selects_some(git: &Git, words: &[OsString]) -> Result<bool> {
    let mut command = git.command("rev-list --objects --filter=tree:0 --max-count=1");
    command.args(words).arg("--");
    Ok(!run_git("git rev-list", command)?.succeeded()?.output.is_empty())
}

/// Fails for a pattern that matches no reference. (Git takes it for an empty selection.)
fn check_patterns(git: &Git, words: &[OsString]) -> Result<()> {
    for word in words {
        let text = printable(word.as_bytes());
        if !text.starts_with("--") || text == "--not" || text.starts_with("--exclude=") {
            continue;
        }
        let mut command = git.command("rev-parse");
        command.arg(word);
        if run_git("git rev-parse", command)?.succeeded()?.output.is_empty() {
            return failed(format!("{text} matches no reference"));
        }
    }
    Ok(())
}

/// What a Git command prints, if it succeeds without a warning.
fn output_without_warning(git: &Git, name: &'static str, words: &str) -> Result<Vec<u8>> {
    match run_git(name, git.command(words))?.succeeded()? {
        ended if ended.said.is_empty() => Ok(ended.output),
        ended => Err(Failure::Ended(ended)),
    }
}

/// Prints a line for each group, or their summary, or the commands that accept names, and the lines about
/// others to standard error. Returns whether the commands accept all.
fn print(groups: &[Vec<Finding>], options: &Options) -> Result<bool> {
    let has_command = |it: &&Vec<Finding>| options.to_accept && it[0].can_be_accepted();
    let (settable, others): (Vec<_>, Vec<_>) = groups.iter().partition(has_command);
    let lines: String = others.into_iter().map(|group| line(group)).collect();
    if !options.to_accept {
        let text = if options.summary { summary(groups) } else { lines };
        return write(&text).map(|()| false);
    }
    let names: BTreeSet<_> = settable.iter().map(|it| it[0].name()).collect();
    write(&names.into_iter().map(command).collect::<String>())?;
    io::stderr().write_all(lines.as_bytes()).or_fail(UNWRITTEN)?;
    Ok(lines.is_empty())
}

/// How many lines there are for each reason.
fn summary(groups: &[Vec<Finding>]) -> String {
    let mut counts = BTreeMap::new();
    for group in groups {
        *counts.entry(printable(&group[0].reason)).or_insert(0) += 1;
    }
    let line = |(reason, count): (String, usize)| format!("{count} {reason}\n");
    counts.into_iter().map(line).collect()
}

/// Writes to standard output.
fn write(text: &str) -> Result<()> {
    let mut to = io::stdout();
    to.write_all(text.as_bytes()).and_then(|()| to.flush()).or_fail(UNWRITTEN)
}

fn line(group: &[Finding]) -> String {
    let line = group[0].line(usize::MAX);
    match (&group[0].kind, group.len()) {
        (_, 1) | (Kind::Reference, _) => format!("{line}\n"),
        (Kind::Entry { .. }, count) => format!("{line} (in {count} versions of its directory)\n"),
        (Kind::Submodule { .. }, count) => format!("{line} (in {count} versions of the file)\n"),
    }
}

/// The command that accepts a name, for a POSIX shell. Bytes that may mean something to it or to a terminal
/// are in octal, for `printf`.
fn command(name: &[u8]) -> String {
    let mut word = String::new();
    for byte in name {
        match byte {
            b'\'' | b'%' | b'"' | b'\\' | 0..=0x1F | 0x7F.. => {
                let _ = write!(word, "\\{byte:03o}");
            }
            _ => word.push(char::from(*byte)),
        }
    }
    if !word.chars().all(|it| it.is_ascii_alphanumeric() || "._+-".contains(it)) {
        word = format!("\"$(printf -- '{word}')\"");
    }
    format!("git config --add names.accept {word}\n")
}

/// A copy of a repository that you don't have to trust. Dropping this removes it.
///
/// It is made by `git upload-pack`, the part of Git that is made for this: it runs no hook and no command
/// of the repository. The copy has none of the repository's settings, and Git computes all ids anew.
pub struct Copy {
    /// Git that works in it.
    pub git: Git,
    directory: PathBuf,
    _keeper: Child,
}

impl Copy {
    /// Copies the repository with this path or URL.
    pub fn of(git: &Git, source: &OsStr) -> Result<Self> {
        let mut shell = Command::new("/bin/sh");
        shell.args(["-c", KEEP]);
        let mut keeper = Child::start("/bin/sh", shell, Stdio::piped())?;
        let mut lines = BufReader::new(keeper.output()?).split(b'\n');
        let line = lines.next().transpose().unwrap_or_default();
        let line = line.or_fail("no temporary directory could be made below TMPDIR or /tmp")?;
        let directory = PathBuf::from(OsStr::from_bytes(&line));
        let (git, copied) = (git.without(OF_A_REPOSITORY), directory.join("copy.git"));
        let git_there = git.with("GIT_DIR", &copied);
        let copy = Self { git: git_there, directory, _keeper: keeper };
        let mut command = git.command("clone --quiet --mirror --template= --reject-shallow");
        command.args(["-c", "fetch.fsckObjects=false"]);
        if Path::new(source).exists() {
            command.args(["--no-local", "-u", UPLOAD]);
        }
        let source = fs::canonicalize(source).map_or_else(|_| source.into(), OsString::from);
        command.arg("--").arg(source).arg(copied);
        run_git("git clone", command)?.succeeded()?;
        Ok(copy)
    }
}

impl Drop for Copy {
    fn drop(&mut self) {
        let _ = fs::remove_dir_all(&self.directory);
    }
}
