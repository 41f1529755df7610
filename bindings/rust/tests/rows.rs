//! Replays the rows of `tests/rows`.

use git_names::{Error, Fault, Kind, Protections};

/// The bytes of a quoted text, and what follows its closing quote.
fn quoted(text: &str) -> (Vec<u8>, &str) {
    let (inner, rest) = text
        .strip_prefix('"')
        .and_then(|text| text.split_once('"'))
        .expect("a quoted text");
    let mut pieces = inner.split("\\x");
    let mut bytes = pieces.next().unwrap_or_default().as_bytes().to_vec();
    for piece in pieces {
        bytes.push(u8::from_str_radix(&piece[..2], 16).expect("two hexadecimal digits"));
        bytes.extend_from_slice(&piece.as_bytes()[2..]);
    }
    (bytes, rest)
}

fn protections_of(settings: &str) -> Protections {
    assert!(
        settings.chars().all(|letter| "whn".contains(letter)),
        "unknown settings {settings}"
    );
    Protections {
        windows: settings.contains('w'),
        hfs: settings.contains('h'),
        ntfs: settings.contains('n'),
    }
}

/// Whether a row is of Windows' own rules, without those of NTFS. `Protections` has no such setting.
fn is_without_ntfs(settings: &str) -> bool {
    settings.contains('w') && !settings.contains('n')
}

/// Replays such a row by the flags of the exported functions, so its offset and text aren't compared.
fn replay_flags(row: &str, kind: &str, settings: &str, name: &[u8], wanted: &str) {
    let (kind, _) = call(kind, name, Protections::NONE);
    let flags = 1 | u32::from(settings.contains('h')) << 1;
    let word = kind
        .fault_under(name, flags)
        .map_or("Ok".into(), |fault| format!("{fault:?}"));
    assert_eq!(wanted.split([':', '@', ' ']).next(), Some(&*word), "{row}");
}

/// The kind, and what its function returns.
fn call(kind: &str, name: &[u8], protections: Protections) -> (Kind, Result<Vec<u8>, Error>) {
    macro_rules! kinds {
        ($($word:literal $kind:ident $function:ident($($protections:ident)?);)*) => {
            match kind {
                $($word => {
                    let given = git_names::$function(name $(, $protections)?);
                    (Kind::$kind, given.map(|it| it.as_bytes().to_vec()))
                })*
                _ => panic!("unknown kind {kind}"),
            }
        };
    }
    kinds! {
        "branch" Branch branch();
        "branch-ref" BranchRef branch_ref();
        "tag" Tag tag();
        "ref" Reference reference();
        "partial" Partial partial();
        "tag-name" TagName tag_name();
        "safe-ref" SafeRef safe_ref(protections);
        "path" Path path(protections);
        "symlink-path" SymlinkPath symlink_path(protections);
        "component" Component component(protections);
        "symlink" Symlink symlink(protections);
        "submodule" Submodule submodule(protections);
    }
}

fn replay_check(row: &str, kind: &str, name: &[u8], wanted: &str) {
    let (kind, settings) = kind.split_once(':').unwrap_or((kind, ""));
    if is_without_ntfs(settings) {
        return replay_flags(row, kind, settings, name, wanted);
    }
    let protections = protections_of(settings);
    let (kind, given) = call(kind, name, protections);
    let fault = kind.fault(name, protections);
    assert_eq!(kind.check(name, protections).err(), given.clone().err());
    let (result, text) = wanted.split_once(' ').unwrap_or((wanted, ""));
    let (result, offset) = result.split_once('@').unwrap_or((result, ""));
    let (word, byte) = result.split_once(':').unwrap_or((result, ""));
    let error = match given {
        Ok(kept) => {
            assert_eq!((&*kept, fault, word), (name, None, "Ok"), "{row}");
            return;
        }
        Err(error) => error,
    };
    assert_eq!(fault, Some(error.fault()), "{row}");
    assert_eq!(format!("{:?}", error.fault()), word, "{row}");
    assert_eq!(error.name(), name, "{row}");
    if !offset.is_empty() {
        assert_eq!(error.offset().to_string(), offset, "{row}");
    }
    if error.fault() == Fault::InvalidByte {
        let byte = u8::from_str_radix(byte, 16).expect("two hexadecimal digits");
        assert_eq!(error.byte(), Some(byte), "{row}");
    }
    let printed = error.to_string();
    let place = printed.strip_prefix(text).expect(row);
    assert!(
        text.is_empty() || name.is_empty() || place.starts_with(" ("),
        "{row}: {printed}"
    );
}

fn replay_repair(row: &str, name: &[u8], wanted: &[u8]) {
    assert_eq!(git_names::sanitize(name), wanted, "{row}");
    let mut buffer = [name, &b"rest"[..]].concat();
    let len = git_names::sanitize_in_place(&mut buffer, name.len()).expect(row);
    assert_eq!(&buffer[..len], wanted, "{row}");
    assert!(
        name.is_empty() || buffer[name.len()..] == b"rest"[..],
        "{row}"
    );
}

pub fn replay(row: &str) {
    let (call, rest) = row.split_once(' ').expect("a call");
    if call.starts_with("many:") {
        return; // An iterator over the names is no function of this crate.
    }
    let (name, rest) = quoted(rest);
    let wanted = rest.trim_start();
    match call {
        "device" => {
            let is_device = git_names::is_windows_device(&name);
            assert_eq!(if is_device { "yes" } else { "no" }, wanted, "{row}");
        }
        "sanitize" => replay_repair(row, &name, &quoted(wanted).0),
        "suggest" if wanted == "none" => {
            assert_eq!(git_names::suggest_branch(&name), None, "{row}")
        }
        "suggest" => {
            let suggested = git_names::suggest_branch(&name);
            assert_eq!(suggested, Some(quoted(wanted).0), "{row}");
        }
        kind => replay_check(row, kind, &name, wanted),
    }
}

#[test]
fn each_row_is_returned() {
    let rows: Vec<&str> = include_str!("../../../tests/rows")
        .lines()
        .filter(|row| !row.is_empty() && !row.starts_with('#'))
        .collect();
    assert!(rows.len() > 300);
    rows.into_iter().for_each(replay);
}

#[test]
fn windows_includes_ntfs() {
    let of = |windows, hfs| Protections {
        windows,
        hfs,
        ntfs: false,
    };
    assert!(git_names::path("aux.c", of(true, false)).is_err());
    assert!(git_names::path("git~1", of(true, false)).is_err());
    assert!(git_names::path("aux.c", of(false, true)).is_ok());
}
