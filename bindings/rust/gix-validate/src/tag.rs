//! Tag names.

use bstr::BStr;
use git_names::Kind;

use crate::checked;

/// The error of [`name()`].
pub mod name {
    pub use crate::errors::tag::Error;
}

/// Returns `input` if it is a valid tag name, otherwise its first fault. A tag name may contain slashes.
///
/// ```
/// use bstr::ByteSlice;
/// use gix_validate::tag;
///
/// assert!(tag::name(b"v1.2.3".as_bstr()).is_ok());
/// assert!(matches!(tag::name(b"a..b".as_bstr()), Err(tag::name::Error::RepeatedDot)));
/// ```
#[inline]
pub fn name(input: &BStr) -> Result<&BStr, name::Error> {
    checked(Kind::TagName, input, 0, name::Error::of)
}
