//! What people read: names as Git quotes them, and messages, in printable ASCII.

use std::fmt::Write as _;
use std::io::{self, Write};

/// A path as Git quotes it. It is also quoted if its end in a line would be unclear, because of `: ` or a
/// space. If there are more than `longest` characters, dots replace those in the middle.
pub fn quoted(bytes: &[u8], longest: usize) -> String {
    let is_plain = |byte: &u8| matches!(byte, b' '..=b'~') && !b"\"\\".contains(byte);
    let has_clear_ends = !matches!(bytes, [] | [b' ', ..] | [.., b' ']);
    if has_clear_ends && bytes.iter().all(is_plain) && !bytes.windows(2).any(|it| it == b": ") {
        return shortened(bytes, longest);
    }
    in_quotes(bytes, longest)
}

/// The same, but always in quotes.
pub fn in_quotes(bytes: &[u8], longest: usize) -> String {
    format!("\"{}\"", shortened(bytes, longest))
}

fn shortened(bytes: &[u8], longest: usize) -> String {
    let (mut text, mut ends) = (String::new(), vec![0]);
    for byte in bytes {
        escape(&mut text, *byte);
        ends.push(text.len());
    }
    if text.len() <= longest {
        return text;
    }
    // (between two bytes, the first is at most half as long, and so is the rest)
    let front = ends.partition_point(|end| *end <= longest / 2) - 1;
    let back = ends.partition_point(|end| text.len() - end > longest / 2);
    format!("{}...{}", &text[..ends[front]], &text[ends[back]..])
}

/// Adds a byte as Git writes it between quotes with core.quotePath.
fn escape(text: &mut String, byte: u8) {
    match byte {
        b'"' | b'\\' => text.extend(['\\', char::from(byte)]),
        b' '..=b'~' => text.push(char::from(byte)),
        0x07..=0x0D => text.extend(['\\', char::from(b"abtnvfr"[usize::from(byte - 0x07)])]),
        _ => {
            let _ = write!(text, "\\{byte:03o}");
        }
    }
}

/// The bytes as a message shows them: on one line, with a question mark for each byte that isn't
/// printable ASCII. Git's messages and paths can contain names of an attacker's choice, which could
/// write anything to a terminal.
pub fn printable(bytes: &[u8]) -> String {
    let bytes = bytes.strip_suffix(b"\n").unwrap_or(bytes);
    let shown = bytes.iter().map(|byte| match byte {
        b'\n' | b'\t' => ' ',
        b' '..=b'~' => char::from(*byte),
        _ => '?',
    });
    shown.collect()
}

/// Prints a message. If standard error is closed, the exit status says enough.
pub fn say(message: &str) {
    let line = printable(message.as_bytes()) + "\n";
    let _ = io::stderr().write_all(line.as_bytes());
}
