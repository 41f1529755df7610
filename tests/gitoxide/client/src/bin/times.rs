//! Prints how long gitoxide takes for what it does with many names, in a repository that bench/run makes: a line for
//! each call with its name, the number of its results, and its processor time in milliseconds, which is the least of a few
//! passes.
//!
//!     times REPOSITORY ROOM     ROOM is an empty folder, for a checkout

use gix::bstr::{BStr, BString, ByteSlice};
use gix::refs::FullName;
use gix::validate::{path::component, reference};
use gix::{progress::Discard, worktree, Repository};
use std::error::Error;
use std::fs;
use std::path::{Path, PathBuf};
use std::sync::atomic::AtomicBool;

type Any<T> = Result<T, Box<dyn Error>>;

static NEVER: AtomicBool = AtomicBool::new(false);

/// The processor time of this thread in nanoseconds. The system counts it whenever the thread gives up its processor.
fn processor_time() -> Any<u64> {
    std::thread::yield_now();
    let counts = fs::read_to_string("/proc/thread-self/schedstat")?;
    Ok(counts.split(' ').next().unwrap_or_default().parse()?)
}

/// Prints a call's line. All passes have the same results.
fn timed(
    call: &str,
    passes: usize,
    wanted: usize,
    mut results: impl FnMut() -> Any<usize>,
) -> Any<()> {
    let mut least = u64::MAX;
    for _ in 0..passes {
        let start = processor_time()?;
        let found = results()?;
        least = least.min(processor_time()? - start);
        if found != wanted {
            return Err(format!("{call}: {found} results, and not {wanted}").into());
        }
    }
    println!("{call} {wanted} {:.3}", least as f64 / 1e6);
    Ok(())
}

fn references(repo: &Repository) -> Any<()> {
    let packed = repo
        .refs
        .open_packed_buffer()?
        .ok_or("there are no packed references")?;
    let names = packed
        .iter()?
        .map(|found| Ok(found?.name.as_bstr().to_owned()))
        .collect::<Any<Vec<BString>>>()?;
    let all: Vec<&BStr> = names.iter().map(|name| name.as_bstr()).collect();
    let some: Vec<&BStr> = all.iter().step_by(50).copied().collect();
    timed("reference", 5, all.len(), || {
        Ok(all
            .iter()
            .filter(|name| reference::name(name).is_ok())
            .count())
    })?;
    timed("FullName", 5, all.len(), || {
        Ok(all
            .iter()
            .filter(|name| FullName::try_from(**name).is_ok())
            .count())
    })?;
    timed("packed", 5, all.len(), || {
        Ok(packed.iter()?.filter(Result::is_ok).count())
    })?;
    timed("all", 5, all.len(), || {
        Ok(repo.references()?.all()?.filter(Result::is_ok).count())
    })?;
    timed("find", 5, some.len(), || {
        Ok(some
            .iter()
            .filter(|name| repo.find_reference(**name).is_ok())
            .count())
    })
}

fn files(repo: &Repository, room: &Path) -> Any<()> {
    let tree = repo.head_tree_id()?.detach();
    let index = repo.index_from_tree(&tree)?;
    let entries = index.entries();
    let mut options =
        repo.checkout_options(worktree::stack::state::attributes::Source::IdMapping)?;
    options.destination_is_initially_empty = true;
    options.thread_limit = Some(1);
    let parts: Vec<&BStr> = entries
        .iter()
        .flat_map(|entry| entry.path(&index).split_str("/"))
        .map(BStr::new)
        .collect();
    timed("component", 5, parts.len(), || {
        Ok(parts
            .iter()
            .filter(|part| component(part, None, options.validate).is_ok())
            .count())
    })?;
    timed("index", 5, entries.len(), || {
        Ok(repo.index_from_tree(&tree)?.entries().len())
    })?;
    timed("checkout", 1, entries.len(), || {
        let (mut index, objects, options) = (
            index.clone(),
            repo.objects.clone().into_arc()?,
            options.clone(),
        );
        let done = worktree::state::checkout(
            &mut index, room, objects, &Discard, &Discard, &NEVER, options,
        )?;
        Ok(done.files_updated - done.errors.len() - done.collisions.len())
    })
}

fn main() -> Any<()> {
    let words: Vec<PathBuf> = std::env::args_os().skip(1).map(PathBuf::from).collect();
    let [repository, room] = words.as_slice() else {
        return Err("usage: times REPOSITORY ROOM".into());
    };
    let repo = gix::open_opts(repository, gix::open::Options::isolated())?;
    references(&repo)?;
    files(&repo, room)
}
