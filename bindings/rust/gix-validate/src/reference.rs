//! Reference names.

use bstr::{BStr, BString};
use git_names::Kind;

use crate::checked;

/// The error of [`name()`], [`name_partial()`] and [`branch_name()`].
pub mod name {
    use std::convert::Infallible;

    use crate::tag;

    pub use crate::errors::reference::Error;

    impl From<tag::name::Error> for Error {
        fn from(error: tag::name::Error) -> Self {
            match error {
                tag::name::Error::InvalidByte { byte } => Error::InvalidByte { byte },
                other => Error::of(other.fault(), "".into()),
            }
        }
    }

    impl From<Infallible> for Error {
        fn from(never: Infallible) -> Self {
            match never {}
        }
    }
}

/// Returns `path` if it is a valid full name, otherwise its first fault. A full name has a slash, such as
/// `refs/heads/main`, or has no byte but `A` to `Z` and `_`, such as `HEAD`.
///
/// ```
/// use bstr::ByteSlice;
/// use gix_validate::reference;
///
/// assert!(reference::name(b"HEAD".as_bstr()).is_ok());
/// assert!(matches!(reference::name(b"main".as_bstr()), Err(reference::name::Error::SomeLowercase)));
/// ```
#[inline]
pub fn name(path: &BStr) -> Result<&BStr, name::Error> {
    checked(Kind::Reference, path, 0, name::Error::of)
}

/// Returns `path` if it is a valid partial name, otherwise its first fault. `main` is one.
#[inline]
pub fn name_partial(path: &BStr) -> Result<&BStr, name::Error> {
    checked(Kind::Partial, path, 0, name::Error::of)
}

/// Returns `path` if it is a full name other than `refs/heads/HEAD`, otherwise its first fault. `HEAD` and
/// `refs/tags/v1` pass too, and `main` doesn't: [`git_names::branch`] is for what people write.
#[inline]
pub fn branch_name(path: &BStr) -> Result<&BStr, name::Error> {
    checked(Kind::BranchRef, path, 0, name::Error::of)
}

/// The partial name that `path` is repaired to: `path` itself if it is one, and at least `-`.
///
/// ```
/// use bstr::ByteSlice;
/// use gix_validate::reference;
///
/// let repaired = reference::name_partial_or_sanitize(b"refs//heads/../x.lock".as_bstr());
/// assert_eq!(repaired, b"refs/heads/-/x".as_bstr());
/// ```
pub fn name_partial_or_sanitize(path: &BStr) -> BString {
    git_names::sanitize(path).into()
}
