//! The pipeline of a push and of a scan: Git lists and prints objects, and the proved program reads
//! them.
//!
//! ```text
//! lines ─► check_push refs
//!            └─ids─► git rev-list ─"ID PATH"─► git cat-file ─► check_push trees
//!                       └─blobs read as .gitmodules─► git cat-file ─► check_push submodules
//! ```
//!
//! A list of objects ends with the word `..end`, for which `git cat-file` prints `..end missing`.
//! `check_push` runs with `--end`: its status is 2 unless that is the last line, and no object is missing.
//! So it sees whether what it reads is whole.

use crate::child::{at_once, write_all, Child};
use crate::failure::{OrFail, Result};
use crate::finding::{id, Finding, Id, Line, OnFinding, Place};
use crate::git::Git;
use crate::settings::Settings;
use crate::verdict::{Report, LIST};
use std::collections::HashMap;
use std::ffi::{OsStr, OsString};
use std::io;
use std::os::unix::process::CommandExt;
use std::path::PathBuf;
use std::process::{ChildStdin, Command, Stdio};

/// What `git cat-file` prints of an object, before its content. Last comes what follows the id in the
/// list: a tree's path, if the list has paths.
const TREES: &str = "--batch=%(objectname) %(objecttype) %(objectsize) %(rest)";
const FILES: &str = "--batch=%(objectname) %(objecttype) %(objectsize)";
/// The last line of a list.
const END: &[u8] = b"..end\n";
/// How much of the path of a `.gitmodules` file is kept.
const LONGEST_PATH: usize = 300;

pub struct Pipeline {
    /// The proved program.
    pub program: PathBuf,
    pub git: Git,
    pub settings: Settings,
}

/// The processes that list trees, print them, and check them. They wait for ids, so they can be started
/// before the ids are known.
pub struct TreeCheck {
    rev_list: Child,
    cat_file: Child,
    check: Child,
}

/// The blobs that are read as `.gitmodules`, with one place of each. Only a check of references or of trees
/// makes such a value, and only `submodules` consumes it.
#[derive(Default)]
#[must_use]
pub struct Modules(HashMap<Id, Place>);

impl Pipeline {
    /// Starts the check of references, which waits for lines.
    pub fn start_references(&self) -> Result<Child> {
        let replace = self.settings.replace.then(|| "--replace".into());
        let words = replace.into_iter().chain(["--ids".into()]).collect();
        self.start_check("check_push refs", words, Stdio::piped())
    }

    /// Checks the names of references in these lines `OLD NEW REF`. Also returns what is to be checked of
    /// those that are allowed: their ids, each on a line, and the blobs of replacements. (Git shows such a
    /// blob instead of another, which may be a `.gitmodules` file that was accepted.)
    pub fn references(
        mut check: Child,
        lines: &[u8],
        found: OnFinding,
    ) -> Result<(Report, Vec<u8>, Modules)> {
        let to = check.input()?;
        let (mut ids, mut replacements) = (Vec::new(), Modules::default());
        let finding_of = |line: &Line| {
            if line.front == b"ref " {
                return Some(Some(Finding::of_reference(line)));
            }
            // (`NEW "REF"` if it is a replacement, and else `NEW`)
            let before_name = line.front.strip_suffix(b" ");
            let new = id(before_name.unwrap_or(line.front))?;
            ids.extend(new.iter().chain(b"\n"));
            if before_name.is_some() {
                replacements.add(new, (line.name.clone(), None));
            }
            Some(None)
        };
        let report = Report::read(check, || write_all(to, lines), found, finding_of)?;
        Ok((report, ids, replacements))
    }

    /// Starts the check of the trees that these words of `git rev-list` select.
    pub fn start_trees(&self, words: &[impl AsRef<OsStr>]) -> Result<TreeCheck> {
        let mut list = self.git.command(LIST);
        list.args(words);
        let Settings { protect, accept, .. } = &self.settings;
        let rules = ["--end", "--modules", "--protect", protect].map(OsString::from);
        // (it takes 16 lists)
        let accepted = accept.chunks(accept.len() / 16 + 1).map(|names| names.join("/"));
        let accepted = accepted.flat_map(|it| ["--accept".into(), it.into()]);
        let check = rules.into_iter().chain(accepted).collect();
        let rev_list = Child::start("git rev-list", list, Stdio::piped())?;
        let (cat_file, check) = self.start_objects(TREES, "check_push trees", check)?;
        Ok(TreeCheck { rev_list, cat_file, check })
    }

    /// Checks the names in trees. `git rev-list` gets these ids. To the blobs that a checkout reads as
    /// `.gitmodules`, it adds those in the trees.
    pub fn trees(
        TreeCheck { rev_list, cat_file, check }: TreeCheck,
        ids: &[u8],
        mut modules: Modules,
        found: OnFinding,
    ) -> Result<(Report, Modules)> {
        let finding_of = |line: &Line| {
            if !line.front.starts_with(b"modules ") {
                return Finding::of_entry(line).map(Some);
            }
            // (`modules BLOB TREE MODE "PATH"`)
            let mut words = line.front.split(|byte| *byte == b' ').skip(1);
            let (blob, tree) = (id(words.next()?)?, id(words.next()?)?);
            modules.add(blob, (line.name.clone(), Some(tree)));
            Some(None)
        };
        let list = |to| pass_on(rev_list, ids, to);
        let report = read_objects(cat_file, check, list, found, finding_of)?;
        Ok((report, modules))
    }

    /// Checks the names of submodules in these blobs, if there are any.
    pub fn submodules(&self, modules: Modules, found: OnFinding) -> Result<Option<Report>> {
        let Modules(modules) = modules;
        if modules.is_empty() {
            return Ok(None);
        }
        let blobs = modules.keys().map(|it| &it[..]).chain([END]).collect::<Vec<_>>().join(&b'\n');
        let words = vec!["--end".into()];
        let (cat_file, check) = self.start_objects(FILES, "check_push submodules", words)?;
        let list = |to| write_all(to, &blobs);
        let place_of = |blob: &[u8]| modules.get(blob).cloned();
        let finding_of = |line: &Line| Finding::of_submodule(line, place_of).map(Some);
        read_objects(cat_file, check, list, found, finding_of).map(Some)
    }

    /// Starts the proved program, with the subcommand in this name. It needs no environment, so it gets none.
    fn start_check(
        &self,
        name: &'static str,
        words: Vec<OsString>,
        input: impl Into<Stdio>,
    ) -> Result<Child> {
        let mut command = Command::new(&self.program);
        // (a word that isn't UTF-8, such as a path, is a wrong argument to it)
        command.env_clear().arg0("check_push").args(name.split(' ').skip(1)).args(words);
        Child::start(name, command, input)
    }

    /// Starts to print objects in this format, and to check them. (In a hostile push Git would apply the same
    /// chains of deltas again and again, unless it keeps the results.)
    fn start_objects(
        &self,
        format: &str,
        name: &'static str,
        words: Vec<OsString>,
    ) -> Result<(Child, Child)> {
        let megabytes = self.settings.limits.megabytes / 2;
        let cache = format!("core.deltaBaseCacheLimit={megabytes}m");
        let mut command = self.git.command(&format!("-c {cache} cat-file"));
        command.args([format, "--buffer"]);
        let mut cat_file = Child::start("git cat-file", command, Stdio::piped())?;
        let check = self.start_check(name, words, cat_file.output()?)?;
        Ok((cat_file, check))
    }
}

impl Modules {
    /// Adds a blob and where it is, unless it is there already.
    fn add(&mut self, blob: Id, mut place: Place) {
        place.0.truncate(LONGEST_PATH);
        self.0.entry(blob).or_insert(place);
    }
}

/// Checks the objects in a list, which `list` writes.
fn read_objects(
    mut cat_file: Child,
    check: Child,
    list: impl FnOnce(ChildStdin) -> Result<()> + Send,
    found: OnFinding,
    finding_of: impl FnMut(&Line) -> Option<Option<Finding>>,
) -> Result<Report> {
    let to = cat_file.input()?;
    let give = || at_once(|| list(to), || cat_file.end()?.succeeded()).map(drop);
    Report::read(check, give, found, finding_of)
}

/// Gives `git rev-list` its ids, and passes on what it lists. If it ends with 0, it has listed everything, so
/// only then does the list get its end.
fn pass_on(mut rev_list: Child, ids: &[u8], mut to: ChildStdin) -> Result<()> {
    let written = write_all(rev_list.input()?, ids);
    let copied = io::copy(&mut rev_list.output()?, &mut to);
    rev_list.end()?.succeeded()?;
    written?;
    copied.or_fail("git cat-file did not read all ids")?;
    write_all(to, END)
}
