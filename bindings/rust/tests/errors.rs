//! What no row says: how errors print, and what they and the types of names are for Rust.

use git_names::{branch, path, Branch, Error, Fault, Protections};

fn printed(name: &str) -> String {
    branch(name).unwrap_err().to_string()
}

#[test]
fn an_error_prints_the_byte_and_the_piece() {
    assert_eq!(printed(""), "Reference name cannot be empty");
    assert_eq!(
        printed("a..b"),
        "Reference name cannot contain repeated dots ('.' at byte 2)"
    );
    assert_eq!(
        printed("feature/.hidden"),
        r#"Reference name cannot start with a dot ('.' at byte 8, in ".hidden")"#
    );
    assert_eq!(
        printed("a\n/b"),
        r#"Reference name contains invalid byte: "\n" ('\n' at byte 1, in "a\n")"#
    );
    assert_eq!(
        printed("é/x y"),
        r#"Reference name contains invalid byte: " " (' ' at byte 4, in "x y")"#
    );
    let quote = branch(b"\xff/it's ".as_slice()).unwrap_err().to_string();
    assert!(quote.ends_with(r#"(' ' at byte 6, in "it's ")"#), "{quote}");
    let raw = branch(b"a/\xff ".as_slice()).unwrap_err().to_string();
    assert!(raw.ends_with(r#"(' ' at byte 3, in "\xff ")"#), "{raw}");
}

#[test]
fn a_name_is_printed_with_a_replacement_for_what_is_not_utf8() -> Result<(), Error> {
    let print = |name: Branch<'_>| format!("[{name:>4}]");
    assert_eq!(print(branch("é/x")?), "[ é/x]");
    assert_eq!(
        print(branch(b"a\xff\xfeb".as_slice())?),
        "[a\u{fffd}\u{fffd}b]"
    );
    Ok(())
}

#[test]
fn an_error_at_the_end_says_so() {
    let error = path("src/", Protections::ALL).unwrap_err();
    assert_eq!(
        (error.fault(), error.offset(), error.byte()),
        (Fault::EmptyPart, 4, None)
    );
    assert_eq!(error.piece(), b"");
    assert_eq!(
        error.to_string(),
        "A path must not be empty, start or end with a slash, or have two in a row (at the end)"
    );
}

#[test]
fn an_error_that_is_debugged_has_the_name_as_text() {
    let error = branch(b"my branch\x1b\xff".as_slice()).unwrap_err();
    let debugged = format!("{error:?}");
    assert!(debugged.starts_with("Error { kind: Branch, "), "{debugged}");
    assert!(
        debugged.ends_with(r#"fault: InvalidByte, offset: 2, name: "my branch\x1b\xff" }"#),
        "{debugged}"
    );
}

#[test]
fn an_empty_piece_is_not_printed() {
    let error = path("a//b", Protections::ALL).unwrap_err();
    assert!(
        error.to_string().ends_with("in a row ('/' at byte 2)"),
        "{error}"
    );
}

#[test]
fn errors_are_compared_cloned_boxed_and_sent() {
    let error: Error = branch("a..b").unwrap_err();
    assert_eq!(error.clone(), error);
    assert_ne!(branch("a..c").unwrap_err(), error);
    let boxed: Box<dyn std::error::Error + Send + Sync> = error.into();
    assert!(boxed.to_string().contains("repeated dots"));
}

#[test]
fn names_of_any_type_of_bytes_are_checked() {
    assert!(branch("main").is_ok());
    assert!(branch(b"main").is_ok());
    assert!(branch(&String::from("main")).is_ok());
    assert!(branch(&vec![b'm']).is_ok());
    let parsed: Branch<'_> = "main".try_into().unwrap();
    assert_eq!(parsed, branch("main").unwrap());
    assert_eq!(parsed.to_str(), Ok("main"));
    assert_eq!(format!("{parsed:?}"), r#"Branch("main")"#);
}

#[test]
fn an_error_keeps_a_name_of_up_to_46_bytes_in_itself_and_a_longer_one_whole() {
    for length in (0..=50).chain([1000]) {
        let name = " ".repeat(length);
        let error = branch(&name).unwrap_err();
        let place = &error as *const Error as usize;
        let within = place..place + std::mem::size_of::<Error>();
        let is_within = within.contains(&(error.name().as_ptr() as usize));
        assert_eq!(is_within, length <= 46, "{length}");
        assert_eq!(error.name(), name.as_bytes());
        assert_eq!(error.clone(), error);
    }
}
