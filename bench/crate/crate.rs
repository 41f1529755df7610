//! The calls of the Rust crate gix-validate for C, to be timed next to those of libgix_validate_c.a. A call returns
//! whether the crate refuses the name: 1 or 0.

use bstr::{BStr, ByteSlice};
use gix_validate::{path, reference, submodule, tag};

unsafe fn bytes<'a>(name: *const u8, len: usize) -> &'a BStr {
    std::slice::from_raw_parts(name, len).as_bstr()
}

macro_rules! calls {
    ($($name:ident: $call:path,)*) => {$(
        #[no_mangle]
        pub unsafe extern "C" fn $name(name: *const u8, len: usize) -> u32 {
            $call(bytes(name, len)).is_err() as u32
        }
    )*};
}
calls! {
    crate_tag: tag::name,
    crate_full: reference::name,
    crate_submodule: submodule::name,
}

/// The flags are those of gix_validate_component.
#[no_mangle]
pub unsafe extern "C" fn crate_component(name: *const u8, len: usize, flags: u32) -> u32 {
    let options = path::component::Options {
        protect_windows: flags & 1 != 0,
        protect_hfs: flags & 2 != 0,
        protect_ntfs: flags & 4 != 0,
    };
    let mode = (flags & 8 != 0).then_some(path::component::Mode::Symlink);
    path::component(bytes(name, len), mode, options).is_err() as u32
}

/// The length of the repaired name, which is written to `out`. That has room for `len` bytes, and for one.
#[no_mangle]
pub unsafe extern "C" fn crate_sanitize(name: *const u8, len: usize, out: *mut u8) -> usize {
    let repaired = reference::name_partial_or_sanitize(bytes(name, len));
    std::ptr::copy_nonoverlapping(repaired.as_ptr(), out, repaired.len());
    repaired.len()
}
