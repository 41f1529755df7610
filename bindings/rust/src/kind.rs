//! The kinds of names.

use crate::block;
use crate::{Error, Fault};

/// A kind of names.
///
/// A function of this crate checks one kind. This is for programs that learn the kind only at run time:
///
/// ```
/// use git_names::{Fault, Kind, Protections};
///
/// assert_eq!(Kind::Branch.fault("a..b", Protections::ALL), Some(Fault::RepeatedDot));
/// assert_eq!(Kind::Path.fault("src/main.rs", Protections::ALL), None);
/// ```
#[derive(Debug, Clone, Copy, PartialEq, Eq, Hash)]
#[non_exhaustive]
pub enum Kind {
    /// A branch, such as `main`: [`branch`](crate::branch).
    Branch,
    /// A full branch name, such as `refs/heads/main`: [`branch_ref`](crate::branch_ref).
    BranchRef,
    /// A tag, such as `v1.2.3`: [`tag`](crate::tag).
    Tag,
    /// A full reference name: [`reference`](crate::reference).
    Reference,
    /// The end of a reference name: [`partial`](crate::partial).
    Partial,
    /// A tag name by gix-validate's rule: [`tag_name`](crate::tag_name).
    TagName,
    /// A full reference name that may be used as a path: [`safe_ref`](crate::safe_ref).
    SafeRef,
    /// A path: [`path`](crate::path).
    Path,
    /// The path of a symbolic link: [`symlink_path`](crate::symlink_path).
    SymlinkPath,
    /// A component of a path: [`component`](crate::component).
    Component,
    /// A component that is a symbolic link: [`symlink`](crate::symlink).
    Symlink,
    /// A submodule name: [`submodule`](crate::submodule).
    Submodule,
}

impl Kind {
    pub(crate) fn number(self) -> u32 {
        self as u32
    }

    /// Why the name isn't of this kind, or `None` if it is. It doesn't allocate.
    #[inline]
    pub fn fault<N: AsRef<[u8]> + ?Sized>(
        self,
        name: &N,
        protections: Protections,
    ) -> Option<Fault> {
        self.fault_under(name.as_ref(), protections.flags())
    }

    /// [`fault`](Kind::fault) under the flags of the exported functions, whose bit of Windows is without that of NTFS.
    /// It is for the crate gix-validate, which has that switch.
    #[doc(hidden)]
    #[inline]
    pub fn fault_under(self, name: &[u8], flags: u32) -> Option<Fault> {
        match block::fault_of(self.number(), name, flags) {
            0 => None,
            number => Some(Fault::of(number)),
        }
    }

    /// Checks a name of this kind.
    ///
    /// # Errors
    ///
    /// The first fault of the name. Only the error of a name with more than 46 bytes allocates.
    #[inline]
    pub fn check<N: AsRef<[u8]> + ?Sized>(
        self,
        name: &N,
        protections: Protections,
    ) -> Result<(), Error> {
        let name = name.as_ref();
        match block::fault_at(self.number(), name, protections.flags()) {
            (0, _) => Ok(()),
            (number, offset) => Err(Error::new(self, protections, number, offset, name)),
        }
    }
}

/// What a path, a component, a submodule name or a safe reference name is protected against.
///
/// A server passes [`ALL`](Protections::ALL), because it doesn't know where a name will be checked out.
#[derive(Debug, Clone, Copy, PartialEq, Eq, Hash)]
pub struct Protections {
    /// Refuse what Windows reads otherwise: backslashes, prefixes such as `C:`, devices such as `aux.c`, and what it
    /// forbids in a name, such as a dot at its end. This includes `ntfs`, because Windows has NTFS.
    pub windows: bool,
    /// Refuse names that HFS+ reads as `.git`, or, for a symbolic link, as `.gitmodules`.
    pub hfs: bool,
    /// Refuse names that NTFS reads as `.git`, or, for a symbolic link, as `.gitmodules`.
    pub ntfs: bool,
}

impl Protections {
    /// All of them, which is the default.
    pub const ALL: Protections = Protections {
        windows: true,
        hfs: true,
        ntfs: true,
    };

    /// None of them.
    pub const NONE: Protections = Protections {
        windows: false,
        hfs: false,
        ntfs: false,
    };

    pub(crate) fn flags(self) -> u32 {
        let ntfs = self.ntfs || self.windows;
        u32::from(self.windows) | u32::from(self.hfs) << 1 | u32::from(ntfs) << 2
    }
}

impl Default for Protections {
    fn default() -> Self {
        Protections::ALL
    }
}
