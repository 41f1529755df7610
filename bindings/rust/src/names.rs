//! A type for each kind of names, whose values are valid, and the functions that make them.

use alloc::string::String;
use core::fmt;

use crate::{Error, Kind, Protections};

/// What each type of names has.
macro_rules! type_of_names {
    ($(#[$doc:meta])* $name:ident) => {
        $(#[$doc])*
        #[derive(Clone, Copy, PartialEq, Eq, PartialOrd, Ord, Hash)]
        pub struct $name<'a>(&'a [u8]);

        impl<'a> $name<'a> {
            /// The name.
            #[inline]
            pub fn as_bytes(self) -> &'a [u8] {
                self.0
            }

            /// The name as text, if it is UTF-8.
            #[inline]
            pub fn to_str(self) -> Result<&'a str, core::str::Utf8Error> {
                core::str::from_utf8(self.0)
            }
        }

        impl AsRef<[u8]> for $name<'_> {
            #[inline]
            fn as_ref(&self) -> &[u8] {
                self.0
            }
        }

        /// Prints U+FFFD for bytes that aren't UTF-8, and allocates only then.
        impl fmt::Display for $name<'_> {
            fn fmt(&self, f: &mut fmt::Formatter<'_>) -> fmt::Result {
                f.pad(&String::from_utf8_lossy(self.0))
            }
        }

        impl fmt::Debug for $name<'_> {
            fn fmt(&self, f: &mut fmt::Formatter<'_>) -> fmt::Result {
                write!(f, concat!(stringify!($name), "(\"{}\")"), self.0.escape_ascii())
            }
        }
    };
}

/// A type of names without protections, and its function.
macro_rules! names {
    ($($(#[$type_doc:meta])* $name:ident; $(#[$doc:meta])* $function:ident;)*) => {$(
        type_of_names! { $(#[$type_doc])* $name }

        $(#[$doc])*
        ///
        /// # Errors
        ///
        /// The first fault of the name. Only the error of a name with more than 46 bytes allocates.
        #[inline]
        pub fn $function<N: AsRef<[u8]> + ?Sized>(name: &N) -> Result<$name<'_>, Error> {
            Kind::$name.check(name, Protections::NONE)?;
            Ok($name(name.as_ref()))
        }

        impl<'a> TryFrom<&'a [u8]> for $name<'a> {
            type Error = Error;

            fn try_from(name: &'a [u8]) -> Result<Self, Error> {
                $function(name)
            }
        }

        impl<'a> TryFrom<&'a str> for $name<'a> {
            type Error = Error;

            fn try_from(name: &'a str) -> Result<Self, Error> {
                $function(name)
            }
        }
    )*};
}

/// A type of names that are protected, and its function.
macro_rules! protected_names {
    ($($(#[$type_doc:meta])* $name:ident; $(#[$doc:meta])* $function:ident;)*) => {$(
        type_of_names! {
            $(#[$type_doc])*
            ///
            /// The type doesn't say under which protections the name was checked. It may have been
            /// [`Protections::NONE`].
            $name
        }

        $(#[$doc])*
        ///
        /// # Errors
        ///
        /// The first fault of the name. Only the error of a name with more than 46 bytes allocates.
        #[inline]
        pub fn $function<N: AsRef<[u8]> + ?Sized>(
            name: &N,
            protections: Protections,
        ) -> Result<$name<'_>, Error> {
            Kind::$name.check(name, protections)?;
            Ok($name(name.as_ref()))
        }
    )*};
}

names! {
    /// A branch as people write it, such as `main`: see [`branch`].
    ///
    /// A function that takes it can't be called with a name that wasn't checked:
    ///
    /// ```
    /// fn create(name: git_names::Branch<'_>) -> String {
    ///     format!("created {name}")
    /// }
    /// assert_eq!(create(git_names::branch("main")?), "created main");
    /// # Ok::<(), git_names::Error>(())
    /// ```
    Branch;
    /// Checks a branch as people write it, such as `main`.
    ///
    /// With `refs/heads/` before it, it is a full branch name, and it doesn't start with a dash.
    ///
    /// ```
    /// use git_names::Fault;
    ///
    /// let main = git_names::branch("main")?;
    /// assert_eq!(main.as_bytes(), b"main");
    /// assert_eq!(git_names::branch("HEAD").unwrap_err().fault(), Fault::Reserved);
    /// assert_eq!(git_names::branch("a..b").unwrap_err().offset(), 2);
    /// # Ok::<(), git_names::Error>(())
    /// ```
    branch;

    /// A full branch name, such as `refs/heads/main`: see [`branch_ref`].
    BranchRef;
    /// Checks a full branch name, such as `refs/heads/main`.
    ///
    /// It is any full reference name other than `refs/heads/HEAD`, so `HEAD` and `refs/tags/v1` pass too, and `main`
    /// doesn't.
    branch_ref;

    /// A tag as people write it, such as `v1.2.3`: see [`tag`].
    Tag;
    /// Checks a tag as people write it, such as `v1.2.3`.
    ///
    /// With `refs/tags/` before it, it is a full reference name. It doesn't start with a dash, and isn't `HEAD`.
    tag;

    /// A full reference name, such as `refs/heads/main` or `HEAD`: see [`reference`].
    Reference;
    /// Checks a full reference name. It has a slash, such as `refs/heads/main`, or no byte but `A` to `Z` and `_`, such
    /// as `HEAD`.
    ///
    /// ```
    /// assert!(git_names::reference("HEAD").is_ok());
    /// assert!(git_names::reference("main").is_err());
    /// ```
    reference;

    /// The end of a reference name, such as `heads/main`: see [`partial`].
    Partial;
    /// Checks a name that may be the end of a reference name, such as `main` or `heads/main`.
    partial;

    /// A tag name as gix-validate has it: see [`tag_name`].
    TagName;
    /// Checks a tag name as `gix_validate::tag::name` does. `HEAD` and `-d` pass, which Git refuses: [`tag`] is for what
    /// people write.
    tag_name;
}

protected_names! {
    /// A full reference name that may be used as a path: see [`safe_ref`].
    SafeRef;
    /// Checks a full reference name that a store may use as a path: it is below `refs/`, or has no byte but `A` to `Z` and
    /// `_`. Under protections each piece between slashes is also a component.
    ///
    /// ```
    /// use git_names::{safe_ref, Protections};
    ///
    /// assert!(safe_ref("refs/heads/main", Protections::ALL).is_ok());
    /// assert!(safe_ref("hooks/post-update", Protections::ALL).is_err());
    /// ```
    safe_ref;

    /// A path, such as `src/main.rs`: see [`path`].
    Path;
    /// Checks a path, such as `src/main.rs`: each part between slashes is a component.
    ///
    /// A slash at the end is refused, so cut off that of an archive's directory. A NUL is refused under all protections.
    ///
    /// ```
    /// use git_names::{path, Fault, Protections};
    ///
    /// assert!(path("src/main.rs", Protections::ALL).is_ok());
    /// let error = path("src/aux.c", Protections::ALL).unwrap_err();
    /// assert_eq!((error.fault(), error.offset()), (Fault::WindowsReservedName, 4));
    /// ```
    path;

    /// The path of a symbolic link: see [`symlink_path`].
    SymlinkPath;
    /// Checks the path of a symbolic link. Its last component may not be `.gitmodules`.
    symlink_path;

    /// A component of a path, such as `src`: see [`component`].
    Component;
    /// Checks a component of a path, such as `src`: the part between two slashes.
    ///
    /// A valid component may have a NUL unless Windows is protected, and the functions of C end a name there.
    /// [`path`] refuses a NUL.
    component;

    /// The name of a symbolic link: see [`symlink`].
    Symlink;
    /// Checks a component that is a symbolic link. It may not be `.gitmodules`.
    symlink;

    /// A submodule name, such as `vendor/lib`: see [`submodule`].
    Submodule;
    /// Checks a submodule name, such as `vendor/lib`.
    ///
    /// It isn't empty, and no part between its slashes and backslashes is `..`. Under protections it is also a path,
    /// and no part may be taken for `.` or `..`.
    submodule;
}
