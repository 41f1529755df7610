//! What is refused: read from the proved program's lines, and written as people read it.

use crate::text::{in_quotes, printable, quoted};
use std::collections::HashMap;

/// An object's id, of 40 or 64 digits.
pub type Id = Box<[u8]>;

/// How much of a name is kept, because a push decides how long it is. (A file system allows no more.)
pub const LONGEST_NAME: usize = 4096;

/// A line `FRONT "NAME" REST` or `FRONT`, without its newline.
pub struct Line<'a> {
    /// What is before the first double quote, or the whole line if there is none.
    pub front: &'a [u8],
    /// The name between the quotes, without its escapes. If it is long, its beginning and three dots.
    pub name: Vec<u8>,
    /// What is after the quote that ends the name, and a space.
    pub rest: &'a [u8],
}

/// A path, and the tree in which it begins, as in a finding.
pub type Place = (Vec<u8>, Option<Id>);

/// What is done with a finding.
pub type OnFinding<'a> = &'a mut dyn FnMut(Finding);

/// A name that is refused, or a `.gitmodules` file that can't be read.
pub struct Finding {
    pub kind: Kind,
    /// Where it is: a reference's name, or the path of the entry or of the `.gitmodules` file. Only the
    /// beginning of a long one.
    pub path: Vec<u8>,
    /// The tree in which the path begins, if that isn't known to be the root.
    pub tree: Option<Id>,
    pub reason: Vec<u8>,
}

pub enum Kind {
    Reference,
    Entry {
        file_type: u32,
        /// Whether Windows alone forbids the name, so that it can be accepted.
        is_windows: bool,
    },
    Submodule {
        /// The `.gitmodules` file.
        blob: Id,
        /// The submodule's name, if that is what is refused.
        name: Option<Vec<u8>>,
    },
}

/// The reasons about which more is said. Of `ILLEGAL` this is the beginning.
const DEVICE: &[u8] = b"Windows device-names may have side-effects and are not allowed";
const ILLEGAL: &[u8] = b"Trailing spaces or dots, and the following characters anywhere, are forbidden in Windows paths";
const PREFIX: &[u8] = b"Windows path prefixes are not allowed";
const SEPARATOR: &[u8] = b"Path separators like / or \\ are not allowed";
const SYMLINK: &[u8] = b"The .gitmodules file must not be a symlink";
const REPLACEMENT: &[u8] = b"replacement references are not allowed";

const ALLOW: &str = "An administrator can allow refs/replace/: git config names.replace true";
const PUSH_OTHER: &str =
    "Push a refused reference under another name: git push origin YOURS:refs/heads/OTHER";
const NO_SYMLINK: &str = "Make .gitmodules a file, not a symlink, in the commit that changes it.";
const RENAME: &str =
    "Rename a refused file or directory in the commit that adds it, not in a later one.";
const CORRECT: &str =
    "Correct a .gitmodules file, or rename a submodule in it, in the commit that changes it.";

impl<'a> Line<'a> {
    pub fn of(text: &'a [u8]) -> Self {
        let quote = text.iter().position(|byte| *byte == b'"');
        let (front, quoted) = text.split_at(quote.unwrap_or(text.len()));
        let mut rest = quoted.get(1..).unwrap_or_default();
        let mut name = Vec::new();
        loop {
            let (byte, after) = match rest {
                [] | [b'"', ..] => break,
                [b'\\', b'x', high, low, after @ ..] => (digit(*high) << 4 | digit(*low), after),
                [b'\\', b'0', after @ ..] => (0, after),
                [b'\\', b't', after @ ..] => (b'\t', after),
                [b'\\', b'n', after @ ..] => (b'\n', after),
                [b'\\', b'r', after @ ..] => (b'\r', after),
                [b'\\', byte, after @ ..] | [byte, after @ ..] => (*byte, after),
            };
            if name.len() < LONGEST_NAME {
                name.push(byte);
            } else if name.len() == LONGEST_NAME {
                name.extend_from_slice(b"...");
            }
            rest = after;
        }
        let rest = rest.strip_prefix(b"\" ").unwrap_or_default();
        Self { front, name, rest }
    }
}

impl Finding {
    /// The reference of a line `ref "REF" REASON`.
    pub fn of_reference(line: &Line) -> Self {
        let (path, reason) = (line.name.clone(), line.rest.into());
        Self { kind: Kind::Reference, path, tree: None, reason }
    }

    /// The entry of a line `TREE MODE "PATH" REASON`, perhaps after `windows `.
    pub fn of_entry(line: &Line) -> Option<Self> {
        let without = line.front.strip_prefix(b"windows ");
        let (tree, mode) = split_once(without.unwrap_or(line.front), b' ')?;
        let kind = Kind::Entry { file_type: file_type(mode), is_windows: without.is_some() };
        let (path, tree, reason) = (line.name.clone(), Some(id(tree)?), line.rest.into());
        Some(Self { kind, path, tree, reason })
    }

    /// The submodule of a line `BLOB OFFSET "NAME" REASON`, or without a name `BLOB OFFSET REASON` or
    /// `BLOB REASON`. `place_of` knows where the blob is.
    pub fn of_submodule(line: &Line, place_of: impl Fn(&[u8]) -> Option<Place>) -> Option<Self> {
        let (blob, rest) = split_once(line.front, b' ')?;
        let (path, tree) = place_of(blob)?;
        let name = rest.ends_with(b" ").then(|| line.name.clone());
        let reason = match (&name, rest) {
            (Some(_), _) => line.rest.into(),
            (None, [b'0'..=b'9', ..]) => [b"at byte ", rest].concat(),
            (None, _) => rest.into(),
        };
        Some(Self { kind: Kind::Submodule { blob: id(blob)?, name }, path, tree, reason })
    }

    /// The line about it, without a newline: first where it is, then why. A path has at most so many
    /// characters, and a submodule's name a third of them.
    ///
    /// ```text
    /// src/aux.h: Windows device-names may have side-effects and are not allowed
    /// .gitmodules: submodule "../x": Submodules names must not contains '..'
    /// refs/heads/HEAD: Reference name is reserved and cannot be used: "refs/heads/HEAD"
    /// ```
    pub fn line(&self, longest: usize) -> String {
        let mut place = quoted(&self.path, longest);
        if let Some(tree) = &self.tree {
            place = format!("{place} (in the tree {})", printable(tree));
        }
        if let Kind::Submodule { name: Some(name), .. } = &self.kind {
            place = format!("{place}: submodule {}", in_quotes(name, longest / 3));
        }
        format!("{place}: {}", printable(&self.reason))
    }

    /// The entry's name.
    pub fn name(&self) -> &[u8] {
        self.path.rsplit(|byte| *byte == b'/').next().unwrap_or_default()
    }

    /// The part of the name that offends, unless it is the whole: a device, a drive, or a character.
    pub fn offender(&self) -> Option<&[u8]> {
        let name = self.name();
        let first = |bytes: &[u8]| name.iter().position(|byte| bytes.contains(byte));
        let is_illegal = |byte: &u8| *byte < b' ' || b"<>:\"|?*".contains(byte);
        match &self.reason[..] {
            DEVICE => Some(&name[..first(b".: ").unwrap_or(name.len())]),
            PREFIX => Some(&name[..=first(b":")?]),
            SEPARATOR => first(b"\\").map(|at| &name[at..=at]),
            reason if reason.starts_with(ILLEGAL) => {
                let at = name.iter().position(is_illegal).unwrap_or(name.len().checked_sub(1)?);
                Some(&name[at..=at])
            }
            _ => None,
        }
    }

    /// Whether an administrator can accept the name by a setting, and may. (To Windows, a name with a
    /// backslash is a path.)
    pub fn can_be_accepted(&self) -> bool {
        let is_windows = matches!(self.kind, Kind::Entry { is_windows: true, .. });
        let is_whole = self.path.len() <= LONGEST_NAME;
        let name = std::str::from_utf8(self.name());
        is_windows && is_whole && name.map_or(false, |name| !name.contains(['\\', '\n']))
    }

    /// What the author of a push can do about it.
    pub fn advice(&self) -> &'static str {
        match (&self.kind, &self.reason[..]) {
            (Kind::Reference, REPLACEMENT) => ALLOW,
            (Kind::Reference, _) => PUSH_OTHER,
            (Kind::Entry { .. }, SYMLINK) => NO_SYMLINK,
            (Kind::Entry { .. }, _) => RENAME,
            (Kind::Submodule { .. }, _) => CORRECT,
        }
    }
}

/// All findings, in the order in which they were found. Those with the same line, such as a name in many
/// versions of its directory, are in one group.
#[derive(Default)]
pub struct Groups {
    pub all: Vec<Vec<Finding>>,
    places: HashMap<String, usize>,
}

impl Groups {
    pub fn add(&mut self, line: String, finding: Finding) {
        let place = *self.places.entry(line).or_insert(self.all.len());
        if place == self.all.len() {
            self.all.push(Vec::new());
        }
        self.all[place].push(finding);
    }
}

/// The number of a hexadecimal digit.
fn digit(byte: u8) -> u8 {
    match byte {
        b'a'..=b'f' => byte - b'a' + 10,
        _ => byte.wrapping_sub(b'0'),
    }
}

/// What kind of file an octal mode is. (A mode may have hundreds of digits, and is none of Git's then.)
pub fn file_type(mode: &[u8]) -> u32 {
    let mode = std::str::from_utf8(mode).unwrap_or_default();
    u32::from_str_radix(mode.trim_end(), 8).unwrap_or_default() >> 12
}

/// These bytes, if they are an id.
pub fn id(text: &[u8]) -> Option<Id> {
    let is_digit = |byte: &u8| matches!(byte, b'0'..=b'9' | b'a'..=b'f');
    (matches!(text.len(), 40 | 64) && text.iter().all(is_digit)).then(|| text.into())
}

/// What is before this byte, where it first occurs, and what is after it.
pub fn split_once(text: &[u8], byte: u8) -> Option<(&[u8], &[u8])> {
    let at = text.iter().position(|it| *it == byte)?;
    Some((&text[..at], &text[at + 1..]))
}
