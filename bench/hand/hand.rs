//! `hand CALL PASSES FILE`: what hand.c measures, in Rust.
use std::time::Instant;

struct Wrong {
    _why: &'static str,
    offset: usize,
}

fn wrong(why: &'static str, offset: usize) -> Result<(), Wrong> {
    Err(Wrong { _why: why, offset })
}

fn piece_by_hand(piece: &[u8], start: usize) -> Result<(), Wrong> {
    match piece {
        [] => wrong("an empty piece", start),
        [b'.', ..] => wrong("a dot at the start", start),
        [.., b'.', b'l', b'o', b'c', b'k'] => wrong(".lock at the end", start + piece.len() - 5),
        _ => Ok(()),
    }
}

fn ref_by_hand(name: &[u8]) -> Result<(), Wrong> {
    let (mut start, mut before) = (0, b'/');
    for (at, &byte) in name.iter().enumerate() {
        match (before, byte) {
            (_, b'/') => {
                piece_by_hand(&name[start..at], start)?;
                start = at + 1;
            }
            (_, 0..=b' ' | 0x7F | b':' | b'?' | b'[' | b'\\' | b'^' | b'~' | b'*') => {
                return wrong("an invalid byte", at)
            }
            (b'.', b'.') => return wrong("two dots in a row", at),
            (b'@', b'{') => return wrong("@{", at),
            _ => (),
        }
        before = byte;
    }
    piece_by_hand(&name[start..], start)?;
    if before == b'.' {
        return wrong("a dot at the end", name.len() - 1);
    }
    if start == 0 && !name.iter().all(|it| it.is_ascii_uppercase() || *it == b'_') {
        return wrong("no slash", 0);
    }
    Ok(())
}

/// The nanoseconds of a call in the best pass. The names are all valid, or none of them.
fn best(names: &[&str], passes: usize, offset_of: fn(&[u8]) -> Option<usize>) -> f64 {
    (0..passes)
        .map(|_| {
            let start = Instant::now();
            let valid = names
                .iter()
                .filter(|it| offset_of(it.as_bytes()).is_none())
                .count();
            assert!(valid == 0 || valid == names.len());
            start.elapsed().as_nanos() as f64 / names.len() as f64
        })
        .fold(f64::INFINITY, f64::min)
}

fn main() {
    let words: Vec<_> = std::env::args().collect();
    let text = std::fs::read_to_string(&words[3]).unwrap();
    let names: Vec<_> = text.lines().collect();
    let call: fn(&[u8]) -> Option<usize> = match &*words[1] {
        "here" => |it| git_names::reference(it).err().map(|_| 0),
        "offset" => |it| Some(git_names::reference(it).err()?.offset()),
        _ => |it| Some(ref_by_hand(it).err()?.offset),
    };
    println!("{:.1}", best(&names, words[2].parse().unwrap(), call));
}
