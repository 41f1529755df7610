//! Child processes.
//!
//! Each is started by an absolute path, with no code between fork and exec, so the standard library calls
//! `posix_spawn`. Unlike `execvp`, that doesn't pass a file which isn't a program to a shell.

use crate::failure::{failed, Ended, OrFail, Result};
use std::io::{Read, Write};
use std::process::{self, ChildStdin, ChildStdout, Command, Stdio};
use std::sync::mpsc::{channel, Receiver};
use std::thread;
use std::time::Duration;

/// How long to wait for the end of standard error after a process has ended. Another may keep it open.
const PATIENCE: Duration = Duration::from_secs(1);
const NO_THREAD: &str = "no thread could be started";

/// A child. If nobody waits for it, it is killed.
pub struct Child {
    pub name: &'static str,
    process: process::Child,
    errors: Receiver<Vec<u8>>,
}

impl Child {
    /// Starts a child, with pipes from its output and, unless there is another input, to its input. This
    /// consumes the command, which closes our copies of its pipes: a pipe has to end when its writer does,
    /// and a writer has to fail when its reader is gone.
    pub fn start(name: &'static str, mut command: Command, from: impl Into<Stdio>) -> Result<Self> {
        command.stdin(from).stdout(Stdio::piped()).stderr(Stdio::piped());
        let mut process = command.spawn().or_fail(format!("{name} could not be started"))?;
        let pipe = process.stderr.take();
        let (sender, errors) = channel();
        let child = Self { name, process, errors };
        let read = move || {
            let mut said = Vec::new();
            let _ = pipe.map(|mut it| it.read_to_end(&mut said));
            let _ = sender.send(said);
        };
        thread::Builder::new().spawn(read).or_fail(NO_THREAD)?;
        Ok(child)
    }

    /// Our end of its standard input.
    pub fn input(&mut self) -> Result<ChildStdin> {
        self.process.stdin.take().or_fail(format!("{} has no input", self.name))
    }

    /// Our end of its standard output.
    pub fn output(&mut self) -> Result<ChildStdout> {
        self.process.stdout.take().or_fail(format!("{} has no output", self.name))
    }

    /// Waits until it has ended.
    pub fn end(mut self) -> Result<Ended> {
        let status = self.process.wait();
        let status = status.or_fail(format!("{} could not be waited for", self.name))?;
        let said = self.errors.recv_timeout(PATIENCE).unwrap_or_default();
        Ok(Ended { process: self.name, status, output: Vec::new(), said })
    }
}

impl Drop for Child {
    fn drop(&mut self) {
        // (neither does anything to one that has ended and was waited for)
        let _ = self.process.kill();
        let _ = self.process.wait();
    }
}

/// Runs a command without input, reads all that it prints, and waits until it has ended.
pub fn run(name: &'static str, command: Command) -> Result<Ended> {
    let mut child = Child::start(name, command, Stdio::null())?;
    let mut output = Vec::new();
    let read = child.output()?.read_to_end(&mut output);
    read.or_fail(format!("the output of {name} could not be read"))?;
    Ok(Ended { output, ..child.end()? })
}

/// Writes all that a process reads, and closes the pipe.
pub fn write_all(mut to: ChildStdin, bytes: &[u8]) -> Result<()> {
    to.write_all(bytes).or_fail("a process did not read all of its input")
}

/// Does two things at once, the first in a thread of its own. If both fail, one because of the other, the
/// failure is that of the other.
pub fn at_once<T: Send, U>(
    first: impl FnOnce() -> Result<T> + Send,
    second: impl FnOnce() -> Result<U>,
) -> Result<(T, U)> {
    thread::scope(|scope| {
        // (`Scope::spawn` panics if there can't be another thread)
        let first = thread::Builder::new().spawn_scoped(scope, first).or_fail(NO_THREAD)?;
        let second = second();
        match (first.join().unwrap_or_else(|_| failed("a thread panicked")), second) {
            (Ok(first), Ok(second)) => Ok((first, second)),
            (Err(first), Err(second)) if first.is_secondary() => Err(second),
            (Err(failure), _) | (_, Err(failure)) => Err(failure),
        }
    })
}
