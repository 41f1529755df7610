//! On what status 0 hangs: that nothing was refused of all that was listed, and that all was listed.
//!
//! The fields of `Report` and `Evidence` are private, so only this page makes values of them.

use crate::child::{at_once, Child};
use crate::failure::{Failure, OrFail, Result};
use crate::finding::{Finding, Line, OnFinding};
use std::io::{BufRead, BufReader};

/// The options with which `git rev-list` lists the trees of the ids on its standard input: every tree that
/// these ids lead to, and the server's references don't.
///
/// - `--objects` follows a commit to its parents and its tree, a tag to what it tags, and a tree to its
///   trees. Git has checked that nothing of this is missing before it starts the hook.
/// - The two filters leave out commits, tags and files, even if they are among the ids. They leave out no
///   tree, and Git still follows what they leave out.
/// - `OLD` leaves out what a reference of the server leads to. The hook runs before any reference is
///   changed, so all of this was there before the push.
/// - Nothing else hides history or shows another object: no grafts, no shallow borders of the pusher,
///   no replacements (`git.rs` has the environment), and no other option.
///
/// Without the setting, Git would look up each id as a reference. A tree has one line, wherever it is: its
/// names don't depend on that.
pub const LIST: &str = "-c core.warnAmbiguousRefs=false rev-list --objects \
                        --filter=object:type=tree --filter-provided-objects";
pub const OLD: &str = "--not --all";
/// What the references of other repositories lead to, from which the server borrows objects.
pub const LENT: &str = " --alternate-refs";
/// Otherwise a line also has one of the tree's paths. (A push can be made so that these are quadratic.)
pub const WITHOUT_PATHS: &str = "--no-object-names";

/// What is known about all names. Apart from what only prints, only `Clean` ends with status 0.
pub enum Verdict {
    Clean(Evidence),
    Refused,
    /// The scan was asked for something else: the help, or commands that accept all refused names.
    Printed,
}

/// Shows that `Verdict::of` has made the verdict.
pub struct Evidence(());

impl Verdict {
    /// `Clean` is made here alone: if each report was read to its end, and refuses nothing. There is no
    /// report about a kind of name that nothing has.
    pub fn of(reports: &[Option<Report>; 3]) -> Self {
        if reports.iter().flatten().any(Report::refuses) {
            return Self::Refused;
        }
        Self::Clean(Evidence(()))
    }
}

/// The report of a program that checks names. All that the program was given has arrived, the report was read
/// to its end, and the program's status agrees: 0 without a refused name, 1 with one.
#[must_use]
pub struct Report {
    refused: u64,
}

impl Report {
    /// Reads the report of a program, while `give` gives it what it checks. A line has to be one that
    /// `finding_of` knows. It is about a refused name, which is found, or about something else, such as an id.
    pub fn read(
        mut program: Child,
        give: impl FnOnce() -> Result<()> + Send,
        found: OnFinding,
        mut finding_of: impl FnMut(&Line) -> Option<Option<Finding>>,
    ) -> Result<Self> {
        let unread = format!("the report of {} could not be read", program.name);
        let mut output = BufReader::with_capacity(1 << 16, program.output()?);
        let (mut line, mut refused) = (Vec::new(), 0);
        let read = || {
            while output.read_until(b'\n', &mut line).or_fail(unread.as_str())? > 0 {
                // (if the last line has no newline, the program died)
                if line.pop() != Some(b'\n') {
                    return Err(Failure::Ended(program.end()?));
                }
                let finding = finding_of(&Line::of(&line));
                if let Some(finding) = finding.or_fail("check_push reported in another way")? {
                    refused += 1;
                    found(finding);
                }
                line.clear();
            }
            let ended = program.end()?;
            match (ended.status.code(), refused) {
                (Some(0), 0) | (Some(1), 1..) => Ok(Self { refused }),
                _ => Err(Failure::Ended(ended)),
            }
        };
        at_once(give, read).map(|((), report)| report)
    }

    pub fn refuses(&self) -> bool {
        self.refused > 0
    }
}
