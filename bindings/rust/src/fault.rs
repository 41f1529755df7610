//! Why a name is refused. `scripts/dev update-fault-tables` writes the lists.

/// Why a name is refused. The numbers never change.
#[derive(Debug, Clone, Copy, PartialEq, Eq, Hash)]
#[non_exhaustive]
#[repr(u8)]
pub enum Fault {
    /// It has a byte below 0x20, a space, DEL, or one of `:` `?` `[` `\` `^` `~`.
    InvalidByte = 1,
    /// It starts with a slash.
    StartsWithSlash = 2,
    /// It has two slashes in a row.
    RepeatedSlash = 3,
    /// It has two dots in a row.
    RepeatedDot = 4,
    /// A piece between slashes ends in `.lock`.
    LockFileSuffix = 5,
    /// It has `@{`.
    ReflogPortion = 6,
    /// It has a `*`.
    Asterisk = 7,
    /// A piece between slashes starts with a dot.
    StartsWithDot = 8,
    /// It ends in a dot.
    EndsWithDot = 9,
    /// It ends in a slash.
    EndsWithSlash = 10,
    /// It is empty.
    Empty = 11,
    /// It has no slash, and a byte other than `A` to `Z` and `_`, such as a digit.
    SomeLowercase = 12,
    /// It is reserved: `@`, `HEAD` as a branch or tag, or `refs/heads/HEAD`.
    Reserved = 13,
    /// A part of it is `..`. Both `/` and `\` separate parts.
    ParentComponent = 14,
    /// It has a slash, or with Windows protection a backslash.
    PathSeparator = 15,
    /// A colon follows its first unit, as in `C:`. This needs Windows protection.
    WindowsPathPrefix = 16,
    /// It is a device, such as `NUL` or `com1.txt`. This needs Windows protection.
    WindowsReservedName = 17,
    /// It has a byte below 0x20 or one of `<>:"|?*`, or a dot or space last. This needs Windows protection.
    WindowsIllegalCharacter = 18,
    /// It is `.git`, or may be read as that. HFS and NTFS protection say how.
    DotGitDir = 19,
    /// It is a symlink, and `.gitmodules`, or may be read as that. HFS and NTFS protection say how.
    SymlinkedGitModules = 20,
    /// It is `.` or `..`.
    Relative = 21,
    /// It starts with a dash, as an option does.
    StartsWithDash = 22,
    /// A part is empty: a slash is first or last, or follows another one, or the path is empty.
    EmptyPart = 23,
    /// It has a NUL byte, although each part is a component. A program that is passed such a path opens another one,
    /// which ends before the NUL.
    Nul = 24,
    /// It is not below `refs/`, and has a byte other than `A` to `Z` and `_`.
    OutsideRefs = 25,
    /// A part may be taken for `.` or `..`. HFS and NTFS protection say how.
    Disguised = 26,
}

impl Fault {
    /// The fault with this number.
    pub(crate) fn of(number: u32) -> Self {
        match number {
            1 => Fault::InvalidByte,
            2 => Fault::StartsWithSlash,
            3 => Fault::RepeatedSlash,
            4 => Fault::RepeatedDot,
            5 => Fault::LockFileSuffix,
            6 => Fault::ReflogPortion,
            7 => Fault::Asterisk,
            8 => Fault::StartsWithDot,
            9 => Fault::EndsWithDot,
            10 => Fault::EndsWithSlash,
            11 => Fault::Empty,
            12 => Fault::SomeLowercase,
            13 => Fault::Reserved,
            14 => Fault::ParentComponent,
            15 => Fault::PathSeparator,
            16 => Fault::WindowsPathPrefix,
            17 => Fault::WindowsReservedName,
            18 => Fault::WindowsIllegalCharacter,
            19 => Fault::DotGitDir,
            20 => Fault::SymlinkedGitModules,
            21 => Fault::Relative,
            22 => Fault::StartsWithDash,
            23 => Fault::EmptyPart,
            24 => Fault::Nul,
            25 => Fault::OutsideRefs,
            26 => Fault::Disguised,
            _ => unreachable!("there is no fault {number}"),
        }
    }
}
