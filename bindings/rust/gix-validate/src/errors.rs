//! The errors. `scripts/dev update-fault-tables` writes this file.

pub mod tag {
    crate::fault::faults! {
        "Why a text is not the name of a tag.":
        /// It has a byte below 0x20, a space, DEL, or one of `:` `?` `[` `\` `^` `~`. The first is
        /// `byte`.
        InvalidByte { byte }: "A ref must not contain invalid bytes or ascii control characters: {byte:?}",
        /// It starts with a slash.
        StartsWithSlash: "A reference name must not start with a slash '/'",
        /// It has two slashes in a row.
        RepeatedSlash: "Multiple slashes in a row are not allowed as they may change the reference's meaning",
        /// It has two dots in a row.
        RepeatedDot: "A ref must not contain '..' as it may be mistaken for a range",
        /// A piece between slashes ends in `.lock`.
        LockFileSuffix: "A ref must not end with '.lock'",
        /// It has `@{`.
        ReflogPortion: "A ref must not contain '@{{' which is a part of a ref-log",
        /// It has a `*`.
        Asterisk: "A ref must not contain '*' character",
        /// A piece between slashes starts with a dot.
        StartsWithDot: "A ref must not start with a '.'",
        /// It ends in a dot.
        EndsWithDot: "A ref must not end with a '.'",
        /// It ends in a slash.
        EndsWithSlash: "A ref must not end with a '/'",
        /// It is empty.
        Empty: "A ref must not be empty",
    }
}

pub mod reference {
    crate::fault::faults! {
        "Why a text is not the name of a reference.":
        /// It has a byte below 0x20, a space, DEL, or one of `:` `?` `[` `\` `^` `~`. The first is
        /// `byte`.
        InvalidByte { byte }: "Reference name contains invalid byte: {byte:?}",
        /// It starts with a slash.
        StartsWithSlash: "Reference name cannot start with a slash",
        /// It has two slashes in a row.
        RepeatedSlash: "Reference name cannot contain repeated slashes",
        /// It has two dots in a row.
        RepeatedDot: "Reference name cannot contain repeated dots",
        /// A piece between slashes ends in `.lock`.
        LockFileSuffix: "Reference name cannot end with '.lock'",
        /// It has `@{`.
        ReflogPortion: "Reference name cannot contain '@{{'",
        /// It has a `*`.
        Asterisk: "Reference name cannot contain '*'",
        /// A piece between slashes starts with a dot.
        StartsWithDot: "Reference name cannot start with a dot",
        /// It ends in a dot.
        EndsWithDot: "Reference name cannot end with a dot",
        /// It ends in a slash.
        EndsWithSlash: "Reference name cannot end with a slash",
        /// It is empty.
        Empty: "Reference name cannot be empty",
        /// It has no slash, and a byte other than `A` to `Z` and `_`, such as a digit.
        SomeLowercase: "Standalone references must be all uppercased, like 'HEAD'",
        /// It is reserved: `@`, `HEAD` as a branch or tag, or `refs/heads/HEAD`.
        Reserved { name }: "Reference name is reserved and cannot be used: {name:?}",
    }
}

pub mod submodule {
    crate::fault::faults! {
        "Why a text is not the name of a submodule.":
        /// It is empty.
        Empty: "Submodule names cannot be empty",
        /// A part of it is `..`. Both `/` and `\` separate parts.
        ParentComponent: "Submodules names must not contains '..'",
    }
}

pub mod path {
    crate::fault::faults! {
        "Why a text may not be a component of a path.":
        /// It is empty.
        Empty: "A path component must not be empty",
        /// It has a slash, or with Windows protection a backslash.
        PathSeparator: "Path separators like / or \\ are not allowed",
        /// A colon follows its first unit, as in `C:`. This needs Windows protection.
        WindowsPathPrefix: "Windows path prefixes are not allowed",
        /// It is a device, such as `NUL` or `com1.txt`. This needs Windows and NTFS protection.
        WindowsReservedName: "Windows device-names may have side-effects and are not allowed",
        /// It has a byte below 0x20 or one of `<>:"|?*`, or a dot or space last. This needs Windows
        /// and NTFS protection.
        WindowsIllegalCharacter: "Trailing spaces or dots, and the following characters anywhere, are forbidden in Windows paths, along with non-printable ones: <>:\"|?*",
        /// It is `.git`, or may be read as that. HFS and NTFS protection say how.
        DotGitDir: "The .git name may never be used",
        /// It is a symlink, and `.gitmodules`, or may be read as that. HFS and NTFS protection say
        /// how.
        SymlinkedGitModules: "The .gitmodules file must not be a symlink",
        /// It is `.` or `..`.
        Relative: "Relative components '.' and '..' are disallowed",
    }
}
