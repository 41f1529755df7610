//! The proved functions, each behind a safe function: one block of machine code, or the same translated to Rust. All
//! unsafe code of this crate is here, and in what is included.
//!
//! The declarations have to say what `bindings/c/gix_validate.h` says; the compiler compares those of the block with
//! nothing.

use alloc::vec::Vec;

/// The block of machine code. (In a clone bindings/build and release/aarch64 make it.)
#[cfg(all(
    not(feature = "portable"),
    target_pointer_width = "64",
    any(
        target_arch = "x86_64",
        all(target_arch = "aarch64", target_endian = "little")
    )
))]
mod functions {
    // The symbols are the crate's own, so that a program may link the library for C, too. (macOS has names with `_`.)
    macro_rules! include_block {
        ($file:literal $(, $options:ident($syntax:ident))?) => {
            core::arch::global_asm!(
                ".macro gix_validate_function name",
                ".globl git_names_\\name, _git_names_\\name",
                ".p2align 4",
                "git_names_\\name:",
                "_git_names_\\name:",
                ".endm",
                include_str!($file),
                ".purgem gix_validate_function"
                $(, $options($syntax))?
            );
        };
    }

    #[cfg(target_arch = "x86_64")]
    include_block!("../native/x86_64.s", options(att_syntax));
    #[cfg(target_arch = "aarch64")]
    include_block!("../native/aarch64.s");

    #[allow(non_camel_case_types)]
    type size_t = usize;

    macro_rules! declare {
        ($abi:literal) => {
            extern $abi {
                #[link_name = "git_names_fault_of"]
                pub(super) fn gix_validate_fault_of(name: *const u8, len: size_t, flags: u32, kind: u32) -> u32;
                #[link_name = "git_names_fault_at"]
                pub(super) fn gix_validate_fault_at(
                    name: *const u8,
                    len: size_t,
                    flags: u32,
                    kind: u32,
                    offset: *mut size_t,
                ) -> u32;
                #[link_name = "git_names_text_of"]
                pub(super) fn gix_validate_text_of(
                    name: *const u8,
                    len: size_t,
                    flags: u32,
                    kind: u32,
                    text: *mut u8,
                    text_len: size_t,
                ) -> size_t;
                #[link_name = "git_names_sanitize_in_place"]
                pub(super) fn gix_validate_sanitize_in_place(
                    buffer: *mut u8,
                    buffer_len: size_t,
                    name_len: size_t,
                ) -> size_t;
                #[link_name = "git_names_suggest"]
                pub(super) fn gix_validate_suggest(
                    name: *const u8,
                    len: size_t,
                    buffer: *mut u8,
                    buffer_len: size_t,
                ) -> size_t;
                #[link_name = "git_names_is_windows_device"]
                pub(super) fn gix_validate_is_windows_device(name: *const u8, len: size_t) -> bool;
                #[cfg(test)]
                #[link_name = "git_names_version"]
                pub(super) fn gix_validate_version() -> u32;
            }
        };
    }

    // The block is called as on Linux, whatever the system's own convention is.
    #[cfg(target_arch = "x86_64")]
    declare!("sysv64");
    #[cfg(target_arch = "aarch64")]
    declare!("C");

    /// Panics on a processor that lacks what the block needs, before that would be an illegal instruction.
    #[inline]
    pub(super) fn check_processor() {
        #[cfg(target_arch = "x86_64")]
        assert!(
            has_sse42(),
            "the proved functions of git-names need a processor with SSE 4.2 (x86-64-v2), or the feature `portable`"
        );
    }

    /// Whether the processor has SSE 4.2. If it has, it is asked once.
    #[cfg(target_arch = "x86_64")]
    #[inline]
    fn has_sse42() -> bool {
        use core::sync::atomic::{AtomicBool, Ordering};

        static HAS: AtomicBool = AtomicBool::new(false);

        #[cold]
        fn ask() -> bool {
            // SAFETY: each x86-64 processor has the instruction CPUID, and its leaf 1.
            #[allow(unused_unsafe)]
            let features = unsafe { core::arch::x86_64::__cpuid(1) }.ecx;
            let has = features & 1 << 20 != 0;
            HAS.store(has, Ordering::Relaxed);
            has
        }

        HAS.load(Ordering::Relaxed) || ask()
    }
}

/// The functions in Rust, for all other targets. (In a clone release/portable makes them.)
#[cfg(not(all(
    not(feature = "portable"),
    target_pointer_width = "64",
    any(
        target_arch = "x86_64",
        all(target_arch = "aarch64", target_endian = "little")
    )
)))]
#[allow(unused, clippy::all)]
mod functions {
    include!("../native/portable.rs");

    pub(super) fn check_processor() {}
}

use functions::*;

// SAFETY, of each call below: pointers and lengths are those of slices that are borrowed until the call returns, those
// that it writes to alone. So their bytes are there, and nobody else writes them. The calls read and write nothing
// else, keep no pointer and have no state.

/// The number of the fault that the name has as one of this kind, or 0.
#[inline]
pub(crate) fn fault_of(kind: u32, name: &[u8], flags: u32) -> u32 {
    check_processor();
    unsafe { gix_validate_fault_of(name.as_ptr(), name.len(), flags, kind) }
}

/// The same, and where that fault is, or the length of the name.
#[inline]
pub(crate) fn fault_at(kind: u32, name: &[u8], flags: u32) -> (u32, usize) {
    check_processor();
    let mut offset = 0;
    let number =
        unsafe { gix_validate_fault_at(name.as_ptr(), name.len(), flags, kind, &mut offset) };
    (number, offset)
}

/// Writes the text of that fault to the buffer if it fits, and returns its length.
pub(crate) fn text_of(kind: u32, name: &[u8], flags: u32, text: &mut [u8]) -> usize {
    check_processor();
    unsafe {
        gix_validate_text_of(
            name.as_ptr(),
            name.len(),
            flags,
            kind,
            text.as_mut_ptr(),
            text.len(),
        )
    }
}

#[inline]
pub(crate) fn is_windows_device(name: &[u8]) -> bool {
    check_processor();
    unsafe { gix_validate_is_windows_device(name.as_ptr(), name.len()) }
}

/// The length of what the first bytes of the buffer are repaired to, or 0 if it has no room for that.
pub(crate) fn sanitize_in_place(buffer: &mut [u8], len: usize) -> usize {
    check_processor();
    unsafe { gix_validate_sanitize_in_place(buffer.as_mut_ptr(), buffer.len(), len) }
}

/// The branch name that is suggested for a name.
pub(crate) fn suggestion(name: &[u8]) -> Option<Vec<u8>> {
    check_processor();
    let mut buffer = name.to_vec();
    let len = unsafe {
        gix_validate_suggest(name.as_ptr(), name.len(), buffer.as_mut_ptr(), buffer.len())
    };
    buffer.truncate(len);
    (len > 0).then_some(buffer)
}

#[test]
fn the_functions_have_the_version_of_the_crate() {
    let number = env!("CARGO_PKG_VERSION")
        .trim_end_matches("-dev")
        .split('.')
        .fold(0, |number, part| {
            number * 1000 + part.parse::<u32>().unwrap()
        });
    assert_eq!(unsafe { gix_validate_version() }, number);
}
