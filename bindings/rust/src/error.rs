//! What is wrong with a name.

use alloc::boxed::Box;
use core::fmt;

use crate::kind::{Kind, Protections};
use crate::{block, Fault};

/// No text of a fault has more bytes.
const TEXT_MAX: usize = 134;
/// So long a name is kept without an allocation.
const SHORT: usize = 46;

/// What is wrong with a name, and where.
///
/// It prints why the name is refused, at which byte, and, if the name has slashes, in which part between them:
///
/// ```
/// let error = git_names::branch("feature/.hidden").unwrap_err();
/// assert_eq!(
///     error.to_string(),
///     r#"Reference name cannot start with a dot ('.' at byte 8, in ".hidden")"#
/// );
/// ```
#[derive(Clone, PartialEq, Eq)]
pub struct Error {
    kind: Kind,
    protections: Protections,
    number: u32,
    offset: usize,
    name: Name,
}

/// A copy of a name.
#[derive(Clone, PartialEq, Eq)]
enum Name {
    Short(u8, [u8; SHORT]),
    Long(Box<[u8]>),
}

impl Name {
    fn new(name: &[u8]) -> Self {
        if name.len() > SHORT {
            return Name::long(name);
        }
        let mut bytes = [0; SHORT];
        bytes[..name.len()].copy_from_slice(name);
        Name::Short(name.len() as u8, bytes)
    }

    #[cold]
    fn long(name: &[u8]) -> Self {
        Name::Long(name.into())
    }

    fn as_bytes(&self) -> &[u8] {
        match self {
            Name::Short(len, bytes) => &bytes[..usize::from(*len)],
            Name::Long(bytes) => bytes,
        }
    }
}

impl Error {
    #[inline]
    pub(crate) fn new(
        kind: Kind,
        protections: Protections,
        number: u32,
        offset: usize,
        name: &[u8],
    ) -> Self {
        Error {
            kind,
            protections,
            number,
            offset,
            name: Name::new(name),
        }
    }

    /// Why the name is refused.
    pub fn fault(&self) -> Fault {
        Fault::of(self.number)
    }

    /// Where in the name that is, in bytes. The offset is never more than the length of the name.
    pub fn offset(&self) -> usize {
        self.offset
    }

    /// The name.
    pub fn name(&self) -> &[u8] {
        self.name.as_bytes()
    }

    /// The byte at the offset. There is none if the name is empty, or lacks something at its end.
    pub fn byte(&self) -> Option<u8> {
        self.name().get(self.offset).copied()
    }

    /// The part between the slashes around the offset, or the whole name if it has no slash.
    pub fn piece(&self) -> &[u8] {
        let is_slash = |byte: &u8| *byte == b'/';
        let (before, after) = self.name().split_at(self.offset);
        let start = before.iter().rposition(is_slash).map_or(0, |at| at + 1);
        let end = after.iter().position(is_slash).unwrap_or(after.len());
        &self.name()[start..self.offset + end]
    }

    fn fmt_place(&self, f: &mut fmt::Formatter<'_>) -> fmt::Result {
        match self.byte() {
            None => return f.write_str(" (at the end)"),
            Some(b'\'') => write!(f, " ('\\''")?,
            Some(b'"') => write!(f, " ('\"'")?,
            Some(byte) => write!(f, " ('{}'", core::ascii::escape_default(byte))?,
        }
        write!(f, " at byte {}", self.offset)?;
        let piece = self.piece();
        if !piece.is_empty() && piece.len() < self.name().len() && self.byte() != Some(b'/') {
            f.write_str(", in ")?;
            fmt_quoted(piece, f)?;
        }
        f.write_str(")")
    }
}

/// Prints bytes between quotes, those that aren't UTF-8 as escapes.
fn fmt_quoted(bytes: &[u8], f: &mut fmt::Formatter<'_>) -> fmt::Result {
    match core::str::from_utf8(bytes) {
        Ok(text) => write!(f, "{text:?}"),
        Err(_) => write!(f, "\"{}\"", bytes.escape_ascii()),
    }
}

impl fmt::Display for Error {
    fn fmt(&self, f: &mut fmt::Formatter<'_>) -> fmt::Result {
        let mut text = [0; TEXT_MAX];
        let flags = self.protections.flags();
        let len = block::text_of(self.kind.number(), self.name(), flags, &mut text);
        f.write_str(core::str::from_utf8(&text[..len]).map_err(|_| fmt::Error)?)?;
        if self.name().is_empty() {
            return Ok(());
        }
        self.fmt_place(f)
    }
}

/// Prints the name as text, with what isn't printable ASCII as escapes.
impl fmt::Debug for Error {
    fn fmt(&self, f: &mut fmt::Formatter<'_>) -> fmt::Result {
        f.debug_struct("Error")
            .field("kind", &self.kind)
            .field("protections", &self.protections)
            .field("fault", &self.fault())
            .field("offset", &self.offset())
            .field("name", &format_args!("\"{}\"", self.name().escape_ascii()))
            .finish()
    }
}

#[cfg(feature = "std")]
impl std::error::Error for Error {}
