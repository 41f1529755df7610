//! What the hook tells the author of a push that it refuses, and where in the push that is: the directory of
//! a tree, and the first commit that contains a path. If these can't be found, the name is still refused.

use crate::child::{at_once, write_all, Child};
use crate::failure::{OrFail, Result};
use crate::finding::{file_type, split_once, Finding, Groups, Kind};
use crate::pipeline::Pipeline;
use crate::text::{in_quotes, printable};
use crate::verdict::LIST;
use std::collections::{HashMap, HashSet};
use std::ffi::OsStr;
use std::io::{self, BufRead, BufReader, Read};
use std::os::unix::ffi::OsStrExt;
use std::process::Stdio;

/// How many lines of names are shown (`count` says so), how long a line may be, and how long a path in it.
const MOST_LINES: usize = 10;
const LONGEST_LINE: usize = 300;
const LONGEST_PATH: usize = 120;
/// How many refused names are kept, because a push can contain millions.
const MOST_KEPT: usize = 10_000;
/// How many digits of a commit's id are shown.
const ABBREVIATED: usize = 12;
/// How many bytes are read of a list of trees, and of the changes that commits make. With long paths both
/// can be quadratic.
const LONGEST_LIST: u64 = 64 << 20;

/// The commits that change some paths, oldest first, even if a later commit reverts the change.
const REV_LIST: &str = "--literal-pathspecs rev-list --stdin --reverse --topo-order --full-history";
/// What each of them changes.
const DIFF_TREE: &str = "--literal-pathspecs -c core.fsmonitor=false diff-tree --stdin --root \
                         -r -t -c --raw --no-abbrev --no-renames -z --";

const OLD: &str = "If no commit of your push adds a name, the server has it already: first push one commit on top of the server's branch that changes it.";
const LIST_ALL: &str = "This lists all in your clone, if gix-validate is installed there: git scan-names BRANCH --not --remotes";
const ACCEPT: &str = "An administrator can accept a name that only Windows forbids: git config --add names.accept NAME";

/// A commit's number, by which an older one has a lower, and its id.
type Commit = (usize, String);

/// Adds something refused, unless there is too much already.
pub fn keep(findings: &mut Vec<Finding>, finding: Finding) {
    if findings.len() < MOST_KEPT {
        findings.push(finding);
    }
}

/// What the author reads of what was kept: the first lines, each once, how many there are, and what to do.
/// `ids` are those of the push, each on a line.
pub fn text_of(mut kept: Vec<Finding>, pipeline: &Pipeline, ids: &[u8]) -> String {
    let is_all = kept.len() < MOST_KEPT;
    let _ = find_directories(&mut kept, pipeline, ids);
    let mut groups = Groups::default();
    for finding in kept {
        groups.add(finding.line(LONGEST_PATH), finding);
    }
    let groups = groups.all;
    let shown = &groups[..groups.len().min(MOST_LINES)];
    let mut commits = vec![None; shown.len()];
    let _ = find_commits(&mut commits, shown, pipeline, ids);
    let findings = || groups.iter().map(|it| &it[0]);
    let names = || findings().zip(&commits);
    let mut lines: Vec<_> = names().map(|(it, commit)| shown_line(it, commit.as_ref())).collect();
    lines.push(count(groups.len(), is_all));
    if groups.len() > MOST_LINES {
        lines.push(LIST_ALL.into());
    }
    for advice in findings().map(Finding::advice) {
        if !lines.iter().any(|line| line == advice) {
            lines.push(advice.into());
        }
    }
    lines.extend(commits.iter().flatten().min().map(|it| change(&it.1)));
    if names().any(|(it, commit)| commit.is_none() && !matches!(it.kind, Kind::Reference)) {
        lines.push(OLD.into());
    }
    if findings().any(Finding::can_be_accepted) {
        lines.push(ACCEPT.into());
    }
    lines.join("\n") + "\n"
}

fn count(count: usize, is_all: bool) -> String {
    let least = if is_all { "" } else { "at least " };
    let names = if count == 1 { "name is" } else { "names are" };
    let shown = if count > MOST_LINES { " (10 of them shown)" } else { "" };
    format!("push refused: {least}{count} {names} not allowed{shown}")
}

/// How to change the commits that are named, of which this is the oldest.
fn change(oldest: &str) -> String {
    format!("To change these commits: git rebase -i --rebase-merges {oldest}~1 BRANCH (or --root BRANCH, if it has no parent). Write \"edit\" in the line of each, or a line \"break\" after that of a merge. Where it stops: git mv OLD NEW, git commit --amend --no-edit, git rebase --continue. If it stops at {oldest} with \"invalid path\": git rebase --quit, git switch -c NEW {oldest}~1, git checkout --no-overlay {oldest} -- ., git commit -C {oldest}, git cherry-pick {oldest}..BRANCH.")
}

/// A finding's line. Below it, as far as they are known, the offending part and the first commit.
fn shown_line(finding: &Finding, commit: Option<&Commit>) -> String {
    let mut line = finding.line(LONGEST_PATH);
    if line.len() > LONGEST_LINE {
        line.truncate(LONGEST_LINE - 3);
        line += "...";
    }
    let offender = finding.offender().map(|it| format!("because of {}", in_quotes(it, 40)));
    let commit = commit.map(|it| format!("first in commit {}", it.1));
    match offender.into_iter().chain(commit).collect::<Vec<_>>() {
        details if details.is_empty() => line,
        details => format!("{line}\n    {}", details.join(", ")),
    }
}

/// Completes paths with the directories of their trees, as far as these are in the first part of Git's list.
fn find_directories(findings: &mut [Finding], pipeline: &Pipeline, ids: &[u8]) -> Result<()> {
    let trees: HashSet<_> = findings.iter().filter_map(|it| it.tree.clone()).collect();
    let words = format!("{LIST} --stdin {}", pipeline.settings.old());
    let mut rev_list = Child::start("git rev-list", pipeline.git.command(&words), Stdio::piped())?;
    let (to, from) = (rev_list.input()?, rev_list.output()?.take(LONGEST_LIST));
    let mut directories = HashMap::new();
    let read = || {
        for line in BufReader::new(from).split(b'\n').map_while(io::Result::ok) {
            let (tree, path) = split_once(&line, b' ').unwrap_or_default();
            if let Some(tree) = trees.get(tree) {
                let slash = if path.is_empty() { "" } else { "/" };
                directories.insert(tree, [path, slash.as_bytes()].concat());
            }
        }
        drop(rev_list); // (this kills it, so that the writer ends)
        Ok(())
    };
    let _ = at_once(|| write_all(to, ids), read);
    for Finding { path, tree, .. } in findings {
        if let Some(directory) = tree.as_ref().and_then(|it| directories.get(it)) {
            *path = [directory, &path[..]].concat();
            *tree = None;
        }
    }
    Ok(())
}

/// Finds the first new commit that contains each of these, if there is one: the oldest of those that change
/// the path and make it such an entry.
fn find_commits(
    commits: &mut [Option<Commit>],
    groups: &[Vec<Finding>],
    Pipeline { git, settings, .. }: &Pipeline,
    ids: &[u8],
) -> Result<()> {
    let paths = || groups.iter().map(|it| OsStr::from_bytes(&it[0].path));
    let mut command = git.command(&format!("{REV_LIST} {} --", settings.old()));
    command.args(paths());
    let mut rev_list = Child::start("git rev-list", command, Stdio::piped())?;
    // (it would read an index, and note that)
    let mut command = git.with("GIT_INDEX_FILE", "/proc/none").command(DIFF_TREE);
    command.args(paths());
    let mut diff_tree = Child::start("git diff-tree", command, rev_list.output()?)?;
    let (to, mut from) = (rev_list.input()?, diff_tree.output()?.take(LONGEST_LIST));
    let mut changes = Vec::new();
    let read = || from.read_to_end(&mut changes).or_fail("the changes could not be read");
    at_once(|| write_all(to, ids), read)?;
    // For each commit its id, and then pairs of change and path, each ended by a NUL.
    let (mut commit, mut parts) = ((0, String::new()), changes.split(|byte| *byte == 0));
    while let Some(part) = parts.next() {
        if part.first() != Some(&b':') {
            commit = (commit.0 + 1, printable(&part[..part.len().min(ABBREVIATED)]));
            continue;
        }
        let path = parts.next().unwrap_or_default();
        for (found, group) in commits.iter_mut().zip(groups) {
            if found.is_none() && path == group[0].path && has(part, group) {
                *found = Some(commit.clone());
            }
        }
    }
    Ok(())
}

/// Whether a change results in what is refused. It has a colon for each parent, then the modes and the ids
/// before and after it, and its kind: `:100644 120000 ID ID T`.
fn has(change: &[u8], group: &[Finding]) -> bool {
    let words = change.split(|byte| *byte == b' ').collect::<Vec<_>>();
    let parents = change.iter().take_while(|byte| **byte == b':').count();
    let (mode, blob) = (words.get(parents), words.get(2 * parents + 1));
    let is_it = |finding: &Finding| match &finding.kind {
        Kind::Entry { file_type: refused, .. } => mode.map(|it| file_type(it)) == Some(*refused),
        Kind::Submodule { blob: refused, .. } => blob.copied() == Some(refused),
        Kind::Reference => false,
    };
    group.iter().any(is_it)
}
