//! Submodule names.

use bstr::BStr;
use git_names::Kind;

use crate::checked;

/// The error of [`name()`].
pub mod name {
    pub use crate::errors::submodule::Error;
}

/// Returns `name` if it is a valid submodule name, otherwise its fault. A valid name isn't empty, and has no part `..`
/// between slashes or backslashes.
///
/// ```
/// use bstr::ByteSlice;
/// use gix_validate::submodule;
///
/// assert!(submodule::name(b"vendor/package".as_bstr()).is_ok());
/// assert!(submodule::name(b"vendor/../x".as_bstr()).is_err());
/// ```
#[inline]
pub fn name(name: &BStr) -> Result<&BStr, name::Error> {
    checked(Kind::Submodule, name, 0, name::Error::of)
}
