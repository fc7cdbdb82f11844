//! Numbers of the C header, read from its text when this is compiled.

/// The header.
const HEADER: &[u8] = include_bytes!("../../../include/ardenquill.h");

/// The number that fills the rest of the line behind the first place of an opening in the header.
/// Where there is none, this does not compile.
pub const fn number_behind(opening: &str) -> usize {
    let mut at = 0;
    while !stands_at(opening.as_bytes(), at) {
        at += 1;
    }
    number_at(at + opening.len())
}

/// Whether the header has those bytes from a place on.
const fn stands_at(bytes: &[u8], at: usize) -> bool {
    let mut same = 0;
    while same < bytes.len() && HEADER[at + same] == bytes[same] {
        same += 1;
    }
    same == bytes.len()
}

/// The decimal number from a place of the header to the end of its line.
const fn number_at(mut at: usize) -> usize {
    let mut number = 0;
    assert!(HEADER[at] != b'\n', "the line has no number");
    while HEADER[at] != b'\n' {
        assert!(HEADER[at].is_ascii_digit(), "the number is not decimal");
        number = 10 * number + (HEADER[at] - b'0') as usize;
        at += 1;
    }
    number
}
