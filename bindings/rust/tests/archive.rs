//! What the header says to an embedder, seen in the archive's objects: they call nothing outside themselves but copying
//! and filling memory, so no heap and no system, and have no data that can be written, so no state.

use std::fs::read;

const OUTSIDE: [&str; 5] = ["memcmp", "memcpy", "memmove", "memset", "bcmp"];

/// A number of so many bytes, lowest first.
fn number(bytes: &[u8], at: usize, length: usize) -> usize {
    bytes[at..at + length].iter().rev().fold(0, |sum, &byte| 256 * sum + byte as usize)
}

/// The text at a place, up to a byte of 0.
fn text(bytes: &[u8], at: usize) -> String {
    bytes[at..].iter().take_while(|&&byte| byte != 0).map(|&byte| byte as char).collect()
}

/// The objects of an archive: each has a head of 60 bytes with its size, and begins at an even place.
fn objects(archive: &[u8]) -> Vec<&[u8]> {
    assert_eq!(archive[..8], *b"!<arch>\n");
    let mut all = Vec::new();
    let mut at = 8;
    while at < archive.len() {
        let size: usize = String::from_utf8_lossy(&archive[at + 48..at + 58]).trim().parse().unwrap();
        let content = &archive[at + 60..at + 60 + size];
        if content.starts_with(b"\x7fELF\x02\x01") {
            all.push(content);
        }
        at += 60 + size + size % 2;
    }
    all
}

/// A section of an object: its kind, flags, place, size, and the section that it is linked with.
fn section(object: &[u8], index: usize) -> (usize, usize, usize, usize, usize) {
    let head = number(object, 40, 8) + index * number(object, 58, 2);
    let field = |at: usize, length: usize| number(object, head + at, length);
    (field(4, 4), field(8, 8), field(24, 8), field(32, 8), field(40, 4))
}

#[test]
fn no_heap_and_no_state() {
    let archive = read(env!("PARITY_ARCHIVE")).unwrap();
    let mut defined = Vec::new();
    let mut wanted = Vec::new();
    for object in objects(&archive) {
        for index in 0..number(object, 60, 2) {
            let (kind, flags, place, size, link) = section(object, index);
            assert!(flags & 3 != 3 || size == 0, "section {index} can be written, and has {size} bytes");
            // The table of symbols: 24 bytes each, the first is none.
            if kind == 2 {
                let names = section(object, link).2;
                for at in (place + 24..place + size).step_by(24) {
                    let name = text(object, names + number(object, at, 4));
                    let list = if number(object, at + 6, 2) == 0 { &mut wanted } else { &mut defined };
                    list.push(name);
                }
            }
        }
    }
    assert_eq!(defined.iter().filter(|name| name.starts_with("parity_")).count(), 22, "{defined:?}");
    wanted.retain(|name| !defined.contains(name) && !OUTSIDE.contains(&name.as_str()));
    assert_eq!(wanted, Vec::<String>::new());
}
