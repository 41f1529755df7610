//! What an error has, and says. `errors.rs` lists the faults of each.

use bstr::{BStr, BString};
use git_names::{Kind, Protections};

/// Makes an error of its documentation and its faults: their names, fields and texts.
macro_rules! faults {
    ($doc:literal: $($(#[$why:meta])* $fault:ident $({ $field:ident })?: $text:literal,)*) => {
        #[doc = $doc]
        #[derive(Debug)]
        #[non_exhaustive]
        pub enum Error {
            $($(#[$why])* $fault $({
                #[doc = concat!("The ", stringify!($field), ".")]
                $field: bstr::BString,
            })?,)*
        }

        impl Error {
            /// That fault, which the name has.
            #[cold]
            #[allow(unused_variables)]
            pub(crate) fn of(fault: git_names::Fault, name: &bstr::BStr) -> Self {
                match fault {
                    $(git_names::Fault::$fault => Error::$fault $({ $field: crate::fault::$field(name) })?,)*
                    _ => unreachable!("the name has no fault {fault:?}"),
                }
            }

            #[allow(dead_code)]
            pub(crate) fn fault(&self) -> git_names::Fault {
                match self {
                    $(Error::$fault { .. } => git_names::Fault::$fault,)*
                }
            }
        }

        impl std::fmt::Display for Error {
            fn fmt(&self, f: &mut std::fmt::Formatter<'_>) -> std::fmt::Result {
                match self {
                    $(Error::$fault $({ $field })? => write!(f, $text $(, $field = $field)?),)*
                }
            }
        }

        impl std::error::Error for Error {
            fn source(&self) -> Option<&(dyn std::error::Error + 'static)> {
                crate::class()
            }
        }
    };
}
pub(crate) use faults;

/// The byte that makes a tag or reference name invalid, which is the same for each kind.
pub(crate) fn byte(name: &BStr) -> BString {
    let error = Kind::TagName.check(name, Protections::NONE);
    let byte = error.err().and_then(|error| error.byte());
    vec![byte.expect("a name whose fault is its invalid byte has one")].into()
}

/// A name that is reserved.
pub(crate) fn name(name: &BStr) -> BString {
    name.to_owned()
}
