//! The limits of time and memory. The standard library can't set them, so the one unsafe block is here.
//! (hook/README.md says why this isn't the crate libc.)

use crate::failure::{OrFail, Result};
use std::io;
use std::os::raw::{c_int, c_uint};

#[cfg(not(all(target_os = "linux", target_pointer_width = "64")))]
compile_error!("the declarations below are those of 64-bit Linux");

extern "C" {
    fn getrlimit(what: c_uint, limit: &mut Limit) -> c_int;
    fn setrlimit(what: c_uint, limit: &Limit) -> c_int;
}

/// `struct rlimit`.
#[repr(C)]
struct Limit {
    soft: u64,
    hard: u64,
}

/// Each process has another second for so many objects of a push.
const STEP: u64 = 4_000;

/// What this process, and each that it starts from then on, may take.
#[derive(Clone, Copy, PartialEq)]
pub struct Limits {
    /// Of processor time.
    pub seconds: u64,
    /// Of memory that it writes to. (Packs that Git maps don't count.)
    pub megabytes: u64,
}

impl Limits {
    /// Sets them for a push of so many objects, and that no process leaves a core file, which could be as
    /// large as its memory.
    pub fn set(self, objects: u64) -> Result<()> {
        const TIME: c_uint = 0; // RLIMIT_CPU
        const MEMORY: c_uint = 2; // RLIMIT_DATA
        const CORE: c_uint = 4; // RLIMIT_CORE
        let seconds = self.seconds + objects / STEP;
        let limits = [(TIME, seconds), (MEMORY, self.megabytes << 20), (CORE, 0)];
        let are_set = limits.into_iter().try_for_each(|(what, limit)| set(what, limit));
        are_set.or_fail("time and memory could not be limited")
    }
}

/// Sets the soft limit, which can be raised again, and ends a process by a signal that says why. A hard
/// limit that is lower stays.
#[allow(unsafe_code)]
fn set(what: c_uint, soft: u64) -> io::Result<()> {
    let mut limit = Limit { soft: 0, hard: 0 };
    // SAFETY: `Limit` has the layout of struct rlimit, and the calls don't keep it.
    let is_set = unsafe {
        getrlimit(what, &mut limit) == 0 && {
            limit.soft = soft.min(limit.hard);
            setrlimit(what, &limit) == 0
        }
    };
    is_set.then_some(()).ok_or_else(io::Error::last_os_error)
}
