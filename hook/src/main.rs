//! A pre-receive hook of Git that refuses hostile names, and a scan of a repository.
//!
//! A proved program, `check_push`, decides about names. This one passes to it what Git lists, reads its
//! reports, and sees how each process ended. It fails closed: apart from help, only [`Verdict::Clean`]
//! ends with status 0. `verdict.rs` says what that depends on. Then read `check` in push.rs.
#![deny(unsafe_code, unused)]
#![warn(clippy::pedantic)]

mod answer;
mod child;
mod failure;
mod finding;
mod git;
mod limits;
mod pipeline;
mod push;
mod scan;
mod settings;
mod text;
mod verdict;

use std::env;
use std::io::{self, Write};
use std::process::ExitCode;
use verdict::Verdict;

/// The directory of the proved program, next to this one. Its name is set when a release is built. No other
/// release has that name, so a push is never checked by parts of two.
const RELEASE: &str = match option_env!("GIX_VALIDATE_RELEASE") {
    Some(name) => name,
    None => "",
};

/// Runs the hook or the scan, by the name under which this program is installed.
fn main() -> ExitCode {
    // (the file that runs, with all links resolved: an administrator may link it under any name)
    let file = env::current_exe();
    let file = file.unwrap_or_else(|error| format!("/proc/self/exe ({error})").into());
    let name = file.file_name().unwrap_or_default().to_string_lossy();
    let is_hook = name == "pre-receive";
    if !is_hook && !matches!(&*name, "scan" | "git-scan-names") {
        // (Linux calls a file that is gone by another name, too)
        text::say(&format!("push refused: {} is not the hook: link the file pre-receive instead of copying it, or push again if it was just replaced", file.display()));
        return ExitCode::from(2);
    }
    if env::args_os().skip(1).eq(["--version"]) {
        let version = RELEASE.rsplit_once('-').map_or(RELEASE, |(version, _)| version);
        let command = if is_hook { "pre-receive" } else { "git-scan-names" };
        let printed = writeln!(io::stdout(), "{command} {version}");
        return printed.map_or(ExitCode::from(2), |()| ExitCode::SUCCESS);
    }
    let program = file.with_file_name(RELEASE).join("check_push");
    match if is_hook { push::run(program) } else { scan::run(program) } {
        Some(Verdict::Clean(_) | Verdict::Printed) => ExitCode::SUCCESS,
        Some(Verdict::Refused) => ExitCode::from(1),
        None => ExitCode::from(2),
    }
}
