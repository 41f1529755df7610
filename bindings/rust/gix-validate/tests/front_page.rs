//! The examples of the front page of gix-validate, and what no row says: texts of values that a caller made, classes,
//! and the two conversions.

use bstr::{BString, ByteSlice};
use gix_validate::{path, reference, submodule, tag};

#[test]
fn the_examples_of_the_front_page() {
    let options = path::component::Options::default();
    assert!(reference::name(b"refs/heads/main".as_bstr()).is_ok());
    assert!(tag::name(b"v1.2.3".as_bstr()).is_ok());
    assert!(submodule::name(b"vendor/package".as_bstr()).is_ok());
    assert!(path::component(b"src".as_bstr(), None, options).is_ok());
    assert!(matches!(
        path::component(b".git".as_bstr(), None, options),
        Err(path::component::Error::DotGitDir)
    ));
}

#[test]
fn a_payload_is_printed_as_bstr_prints_it() {
    for byte in 0..=255_u8 {
        let byte = BString::from(vec![byte]);
        assert_eq!(
            tag::name::Error::InvalidByte { byte: byte.clone() }.to_string(),
            format!("A ref must not contain invalid bytes or ascii control characters: {byte:?}")
        );
        assert_eq!(
            reference::name::Error::InvalidByte { byte: byte.clone() }.to_string(),
            format!("Reference name contains invalid byte: {byte:?}")
        );
    }
    let name = BString::from("");
    assert_eq!(
        reference::name::Error::Reserved { name }.to_string(),
        "Reference name is reserved and cannot be used: \"\""
    );
}

#[test]
fn the_fault_of_a_tag_is_that_of_a_reference() {
    for name in [
        "", "a b", "/a", "a//b", "a..b", "a.lock", "@{", "a*", ".a", "a.", "a/",
    ] {
        let name = name.as_bytes().as_bstr();
        let tag = tag::name(name).expect_err("a bad name");
        let reference = reference::name_partial(name).expect_err("a bad name");
        assert_eq!(format!("{tag:?}"), format!("{reference:?}"));
        assert_eq!(
            reference::name::Error::from(tag).to_string(),
            reference.to_string()
        );
    }
}

#[test]
fn errors_may_be_boxed_and_sent() {
    fn boxed<E: std::error::Error + Send + Sync + 'static>(
        error: E,
    ) -> Box<dyn std::error::Error + Send + Sync> {
        error.into()
    }
    assert_eq!(
        boxed(tag::name::Error::Empty).to_string(),
        "A ref must not be empty"
    );
    assert_eq!(
        boxed(reference::name::Error::Empty).to_string(),
        "Reference name cannot be empty"
    );
    assert_eq!(
        boxed(submodule::name::Error::Empty).to_string(),
        "Submodule names cannot be empty"
    );
    assert_eq!(
        boxed(path::component::Error::Empty).to_string(),
        "A path component must not be empty"
    );
}

#[cfg(feature = "gix-error")]
#[test]
fn every_error_is_a_validation_error() {
    let errors: [&(dyn std::error::Error + 'static); 4] = [
        &tag::name::Error::Empty,
        &reference::name::Error::Empty,
        &submodule::name::Error::Empty,
        &path::component::Error::Empty,
    ];
    for error in errors {
        let classes: Vec<_> = gix_error::classify(error).map(|c| c.class()).collect();
        assert_eq!(classes, [gix_error::Class::Validation], "{error:?}");
    }
}
