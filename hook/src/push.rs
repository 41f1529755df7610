//! The hook: refuses a push that contains a hostile name, and says which. hook/README.md says what it
//! checks and what it doesn't.

use crate::answer::{keep, text_of};
use crate::child::{at_once, Child};
use crate::failure::{failed, OrFail, Result};
use crate::finding::id;
use crate::git::Git;
use crate::pipeline::{Pipeline, TreeCheck};
use crate::settings::{read_config, Settings};
use crate::text::say;
use crate::verdict::{Verdict, WITHOUT_PATHS};
use std::collections::HashMap;
use std::env;
use std::ffi::OsStr;
use std::fs::{self, File};
use std::io::{self, BufRead, BufReader, Read, Write};
use std::path::{Path, PathBuf};
use std::process::Stdio;

/// The longest chain of deltas that Git makes.
const LONGEST_CHAIN: u64 = 4095;
const TOO_LONG: &str = "the push has a chain of more than 4095 deltas, which Git never makes";
const UNLISTED: &str = "the deltas of the push could not be listed";

/// Checks the push whose lines are on standard input. Returns nothing if that failed.
pub fn run(program: PathBuf) -> Option<Verdict> {
    let mut settings = Settings::default();
    let checked = check(program, &mut settings);
    if let Err(failure) = &checked {
        let refused = "push refused: the server could not check the names";
        failure.say(refused, Some(settings.limits));
    }
    if !matches!(checked, Ok(Verdict::Clean(_))) {
        // (each may have been made for a push that isn't accepted)
        settings.ignored.iter().for_each(|line| say(line));
    }
    checked.ok()
}

/// Checks all names: those of references, those in trees, and those of submodules. If that fails, it may have
/// read the settings.
fn check(program: PathBuf, settings: &mut Settings) -> Result<Verdict> {
    let (pipeline, references, trees) = start(program, settings)?;
    let mut lines = Vec::new();
    io::stdin().read_to_end(&mut lines).or_fail("the lines of the push could not be read")?;
    let mut kept = Vec::new();
    let mut found = |it| keep(&mut kept, it);
    let (references, mut ids, mut modules) = Pipeline::references(references, &lines, &mut found)?;
    if references.refuses() {
        // (a refused reference doesn't hide what its files would be refused for)
        ids = new_ids(&lines);
    }
    let mut of_trees = None;
    if !ids.is_empty() {
        let (report, more) = Pipeline::trees(trees, &ids, modules, &mut found)?;
        (of_trees, modules) = (Some(report), more);
    }
    let submodules = pipeline.submodules(modules, &mut found)?;
    let verdict = Verdict::of(&[Some(references), of_trees, submodules]);
    if let Verdict::Refused = verdict {
        let text = text_of(kept, &pipeline, &ids);
        // (refused all the same, if nobody reads why)
        let _ = io::stdout().write_all(text.as_bytes());
    }
    Ok(verdict)
}

/// Reads the settings, sets the limits, and starts to check references and trees.
///
/// A small push spends most of its time starting processes. So all are started before the settings are known,
/// and started again if there are settings. (They have read nothing by then.)
fn start(program: PathBuf, settings: &mut Settings) -> Result<(Pipeline, Child, TreeCheck)> {
    let objects = objects()?;
    settings.limits.set(objects)?;
    let mut pipeline = Pipeline { program, git: Git::in_push()?, settings: settings.clone() };
    let read = || Settings::of(&read_config(&pipeline.git.with_all_settings())?);
    let (mut started, read) = at_once(|| start_checks(&pipeline), read)?;
    if read != *settings {
        drop(started);
        *settings = read;
        settings.limits.set(objects)?;
        pipeline.settings = settings.clone();
        started = start_checks(&pipeline)?;
    }
    if objects > LONGEST_CHAIN {
        check_chains(&pipeline.git)?;
    }
    let (references, trees) = started;
    Ok((pipeline, references, trees))
}

/// Starts the programs that wait for the push.
fn start_checks(pipeline: &Pipeline) -> Result<(Child, TreeCheck)> {
    let words = format!("{WITHOUT_PATHS} --stdin {}", pipeline.settings.old());
    let trees = pipeline.start_trees(&words.split(' ').collect::<Vec<_>>())?;
    Ok((pipeline.start_references()?, trees))
}

/// The new ids in these lines `OLD NEW REF`, each on a line. (A deleted reference has zeros there.)
fn new_ids(lines: &[u8]) -> Vec<u8> {
    let lines = lines.split(|byte| *byte == b'\n');
    let ids = lines.filter_map(|line| id(line.split(|byte| *byte == b' ').nth(1)?));
    let new = ids.filter(|id| id.iter().any(|digit| *digit != b'0'));
    new.flat_map(|id| [&id, &b"\n"[..]].concat()).collect()
}

/// Fails if the push has a longer chain of deltas. To print an object, Git first follows its whole chain, so
/// a small pack could keep it busy for minutes.
fn check_chains(git: &Git) -> Result<()> {
    let quarantine = git.without("GIT_ALTERNATE_OBJECT_DIRECTORIES");
    let mut command = quarantine.command("cat-file --batch-all-objects --unordered --buffer");
    command.arg("--batch-check=%(objectname) %(deltabase)");
    let mut cat_file = Child::start("git cat-file", command, Stdio::null())?;
    let number = |id: &str| u64::from_str_radix(id.get(..16)?, 16).ok();
    // How many deltas lead to an object, by the first digits of its id.
    let mut lengths = HashMap::new();
    for line in BufReader::new(cat_file.output()?).lines() {
        let line = line.or_fail(UNLISTED)?;
        let ids = line.split_once(' ').and_then(|(id, base)| Some((number(id)?, number(base)?)));
        let (object, base) = ids.or_fail(UNLISTED)?;
        // (a delta comes after its base, unless that is one which Git has added, and so is whole)
        let length = if base == 0 { 0 } else { *lengths.entry(base).or_insert(0) + 1 };
        let before = lengths.insert(object, length);
        if length > LONGEST_CHAIN || before.map_or(false, |it| it < length) {
            return failed(TOO_LONG);
        }
    }
    cat_file.end()?.succeeded().map(drop)
}

/// How many objects the push has, in a pack or each in a file.
fn objects() -> Result<u64> {
    let variables = ["GIT_ALTERNATE_OBJECT_DIRECTORIES", "GIT_OBJECT_DIRECTORY"];
    let counted = match variables.map(env::var_os) {
        [Some(_), Some(directory)] => objects_in(Path::new(&directory)),
        // (without a quarantine the directory is that of the whole server)
        _ => Ok(0),
    };
    counted.or_fail("the objects of the push could not be counted")
}

fn objects_in(directory: &Path) -> io::Result<u64> {
    let mut count = 0;
    for entry in fs::read_dir(directory)? {
        let (path, kind) = entry.and_then(|it| Ok((it.path(), it.file_type()?)))?;
        if kind.is_dir() {
            count += objects_in(&path)?;
        } else if path.extension() == Some(OsStr::new("pack")) {
            // (the header is `PACK`, the format's version, and how many objects there are)
            let mut header = [0; 12];
            File::open(&path)?.read_exact(&mut header)?;
            count += header[8..].iter().fold(0, |count, byte| count << 8 | u64::from(*byte));
        } else if directory.file_name().map_or(0, OsStr::len) == 2 {
            count += 1; // (each is a file in a directory with two digits of its id)
        }
    }
    Ok(count)
}
