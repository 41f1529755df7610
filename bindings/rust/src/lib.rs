//! Checks whether bytes are a valid Git name: a branch, a tag, a reference, a path or a submodule name. If not, says why
//! and where, and suggests a branch to use instead.
//!
//! ```
//! use git_names::{branch, path, suggest_branch, Fault, Protections};
//!
//! let main = branch("main")?;
//! assert_eq!(main.as_bytes(), b"main");
//!
//! let error = path("src/aux.c", Protections::ALL).unwrap_err();
//! assert_eq!(error.fault(), Fault::WindowsReservedName);
//! assert_eq!(error.offset(), 4);
//!
//! assert_eq!(suggest_branch("Fix: it's done.."), Some(b"Fix-it's-done".to_vec()));
//! # Ok::<(), git_names::Error>(())
//! ```
//!
//! A name is anything that is bytes: `&str`, `&[u8]`, `String`, `Vec<u8>`. It needn't be UTF-8.
//!
//! The decisions are made by functions that are proved against a contract: on x86-64 and AArch64 as machine code, and
//! for other targets in Rust that was translated from them. `docs/ASSURANCE.md` says what that covers. The crate needs
//! no other one, and without the feature `std` only `core` and `alloc`. A call panics on an x86-64 processor without
//! SSE 4.2, unless the feature `portable` is on.

#![no_std]
#![deny(missing_docs, rust_2018_idioms, unsafe_code)]

extern crate alloc;
#[cfg(any(feature = "std", test))]
extern crate std;

use alloc::vec;
use alloc::vec::Vec;

#[allow(unsafe_code)]
mod block;
mod error;
mod fault;
mod kind;
mod names;

pub use error::Error;
pub use fault::Fault;
pub use kind::{Kind, Protections};
pub use names::{
    branch, branch_ref, component, partial, path, reference, safe_ref, submodule, symlink,
    symlink_path, tag, tag_name, Branch, BranchRef, Component, Partial, Path, Reference, SafeRef,
    Submodule, Symlink, SymlinkPath, Tag, TagName,
};

/// Suggests a branch for a name that a person typed.
///
/// A valid branch is its own suggestion. Of any other name, each run of bytes that a branch may not have becomes a dash,
/// and what may not stand at the ends of a piece goes. There is no suggestion if nothing is left, or only `@` or `HEAD`.
///
/// ```
/// use git_names::suggest_branch;
///
/// assert_eq!(suggest_branch("feature/ABC: [x] done?"), Some(b"feature/ABC-x]-done".to_vec()));
/// assert_eq!(suggest_branch("..."), None);
/// ```
pub fn suggest_branch<N: AsRef<[u8]> + ?Sized>(name: &N) -> Option<Vec<u8>> {
    block::suggestion(name.as_ref())
}

/// Repairs any bytes to a name that [`partial`] accepts, as gix-validate does. A valid name is unchanged, and the empty
/// name becomes `-`.
///
/// ```
/// assert_eq!(git_names::sanitize("refs//heads/../x.lock"), b"refs/heads/-/x");
/// ```
pub fn sanitize<N: AsRef<[u8]> + ?Sized>(name: &N) -> Vec<u8> {
    let name = name.as_ref();
    let mut buffer = vec![0; name.len().max(1)]; // the empty name becomes one byte
    buffer[..name.len()].copy_from_slice(name);
    let len = block::sanitize_in_place(&mut buffer, name.len());
    buffer.truncate(len);
    buffer
}

/// Repairs the name in the first `len` bytes of `buffer` where it is, as [`sanitize`] does, and returns the new length.
///
/// The bytes from the old length on (at least 1) stay as they were. The result is `None`, and nothing changes, if
/// `buffer` is empty or has fewer than `len` bytes. It doesn't allocate.
///
/// ```
/// let mut buffer = *b"a..b?";
/// assert_eq!(git_names::sanitize_in_place(&mut buffer, 4), Some(3));
/// assert_eq!(&buffer[..3], b"a.b");
/// ```
pub fn sanitize_in_place(buffer: &mut [u8], len: usize) -> Option<usize> {
    match block::sanitize_in_place(buffer, len) {
        0 => None,
        repaired => Some(repaired),
    }
}

/// Whether Windows takes the name for a device, such as `NUL` or `com1.txt`, in any ASCII letter case.
///
/// ```
/// assert!(git_names::is_windows_device("nul.txt"));
/// assert!(!git_names::is_windows_device("com0"));
/// ```
#[inline]
pub fn is_windows_device<N: AsRef<[u8]> + ?Sized>(name: &N) -> bool {
    block::is_windows_device(name.as_ref())
}
