//! CBOR heads and strings as document 01 narrows RFC 8949: definite lengths, shortest heads. A place
//! is an index into the bytes read, and may lie anywhere, past their end too.

pub const PARSE_CBOR: u32 = 4;
pub const PARSE_BOUNDS: u32 = 5;
pub const UNKNOWN_FIELD: u32 = 6;

pub const UNSIGNED: u8 = 0;
pub const BYTES: u8 = 2;
pub const TEXT: u8 = 3;
pub const ARRAY: u8 = 4;
pub const MAP: u8 = 5;

/// The first defect of a reading: document 01's number for it and where it lies.
#[derive(Clone, Copy, Debug, PartialEq, Eq)]
pub struct Defect {
    pub number: u32,
    pub place: usize,
}

pub(crate) fn malformed(place: usize) -> Defect {
    Defect { number: PARSE_CBOR, place }
}

pub(crate) fn out_of_bounds(place: usize) -> Defect {
    Defect { number: PARSE_BOUNDS, place }
}

pub(crate) fn unknown(place: usize) -> Defect {
    Defect { number: UNKNOWN_FIELD, place }
}

/// One head: what stands in its top three bits, its number, and the place behind it.
#[derive(Clone, Copy, Debug, PartialEq, Eq)]
pub struct Head {
    pub major: u8,
    pub value: u64,
    pub next: usize,
}

/// What a string may hold.
#[derive(Clone, Copy, Debug, PartialEq, Eq)]
pub enum Class {
    Name,
    Printable,
    Path,
    Upper,
    Hex,
}

impl Class {
    pub(crate) fn admits(self, content: &[u8]) -> bool {
        let every = |good: fn(&u8) -> bool| content.iter().all(good);
        match self {
            Class::Name => every(|c| c.is_ascii_alphanumeric() || matches!(c, b'-' | b'.' | b'_')),
            Class::Printable => every(u8::is_ascii_graphic),
            Class::Path => {
                content.first() == Some(&b'/') && every(u8::is_ascii_graphic) && !rewritten(content)
            }
            Class::Upper => every(u8::is_ascii_uppercase),
            Class::Hex => every(|c| matches!(c, b'0'..=b'9' | b'a'..=b'f')),
        }
    }
}

/// Whether a path has what proxies rewrite (document 02, M-106): "%", "//", or a segment "." or "..".
fn rewritten(path: &[u8]) -> bool {
    let mut segments = path.split(|&byte| byte == b'/');
    path.contains(&b'%') || path.windows(2).any(|pair| pair == b"//") || segments.any(|s| s == b"." || s == b"..")
}

/// The head at `at`, in its shortest form.
pub fn head(s: &[u8], at: usize) -> Result<Head, Defect> {
    shortest_head(s, at).ok_or(malformed(at))
}

fn shortest_head(s: &[u8], at: usize) -> Option<Head> {
    let (&first, rest) = s.get(at..)?.split_first()?;
    let (major, low) = (first >> 5, first & 31);
    if low < 24 {
        return Some(Head { major, value: u64::from(low), next: at + 1 });
    }
    // Low bits 24 to 27 stand for a number of 1, 2, 4, 8 bytes; 28 to 31 for none that is read here.
    let width = if low < 28 { 1 << (low - 24) } else { return None };
    let value = rest.get(..width)?.iter().fold(0, |value, &byte| value << 8 | u64::from(byte));
    (width_of(value) == width).then_some(Head { major, value, next: at + 1 + width })
}

/// How many bytes follow the first one in the shortest head of a number.
fn width_of(value: u64) -> usize {
    if value < 24 {
        return 0;
    }
    let bits = 64 - value.leading_zeros() as usize;
    bits.div_ceil(8).next_power_of_two()
}

/// The shortest head that says a number.
pub fn written_head(major: u8, value: u64) -> Vec<u8> {
    let width = width_of(value);
    let low = if width == 0 { value as u8 } else { 24 + width.ilog2() as u8 };
    let mut bytes = vec![major << 5 | low];
    bytes.extend(&value.to_be_bytes()[8 - width..]);
    bytes
}

/// Start and end of the content of a string of type `major`, `low` to `high` bytes long. The range
/// is judged before the bytes are looked for, as document 01 orders it.
pub fn run(s: &[u8], at: usize, major: u8, low: u64, high: u64) -> Result<(usize, usize), Defect> {
    let head = head(s, at)?;
    if head.major != major {
        return Err(malformed(at));
    }
    if head.value < low || head.value > high {
        return Err(out_of_bounds(at));
    }
    let left = s.len() - head.next;
    match usize::try_from(head.value) {
        Ok(length) if length <= left => Ok((head.next, head.next + length)),
        _ => Err(malformed(at)),
    }
}

/// Start and end of the content of a text of a class. Bad content is a defect where content begins,
/// whichever of its bytes is wrong.
pub fn string(s: &[u8], at: usize, class: Class, low: u64, high: u64) -> Result<(usize, usize), Defect> {
    let (from, to) = run(s, at, TEXT, low, high)?;
    if class.admits(&s[from..to]) {
        Ok((from, to))
    } else {
        Err(malformed(from))
    }
}

#[cfg(test)]
mod tests {
    use super::*;

    #[test]
    fn the_examples_of_document_01() {
        let examples: [(u64, &[u8]); 7] = [
            (23, &[0x17]),
            (24, &[0x18, 0x18]),
            (255, &[0x18, 0xff]),
            (256, &[0x19, 1, 0]),
            (65_535, &[0x19, 0xff, 0xff]),
            (65_536, &[0x1a, 0, 1, 0, 0]),
            (4_294_967_296, &[0x1b, 0, 0, 0, 1, 0, 0, 0, 0]),
        ];
        for (value, bytes) in examples {
            assert_eq!(head(bytes, 0), Ok(Head { major: 0, value, next: bytes.len() }), "{value}");
            assert_eq!(written_head(0, value), bytes, "{value}");
        }
        assert_eq!(head(&[0x1a, 0, 0, 0xff, 0xff], 0), Err(malformed(0)));
        assert_eq!(head(&[0x1a, 0x69, 0x55, 0xb9, 0], 0), Ok(Head { major: 0, value: 1_767_225_600, next: 5 }));
    }

    #[test]
    fn the_scope_of_document_01() {
        let scope = b"\xa1\x67methods\x81\x63GET";
        assert_eq!(head(scope, 0), Ok(Head { major: 5, value: 1, next: 1 }));
        assert_eq!(string(scope, 1, Class::Name, 0, 64), Ok((2, 9)));
        assert_eq!(head(scope, 9), Ok(Head { major: 4, value: 1, next: 10 }));
        assert_eq!(string(scope, 10, Class::Upper, 1, 16), Ok((11, 14)));
    }

    #[test]
    fn a_long_cut_or_reserved_head_is_refused() {
        let heads: [&[u8]; 12] = [
            &[0x18],
            &[0x18, 23],
            &[0x19, 1],
            &[0x19, 0, 255],
            &[0x1a, 1, 0, 0],
            &[0x1b, 0, 0, 0, 0, 255, 255, 255, 255],
            &[0x1b, 1, 0, 0, 0, 0, 0, 0],
            &[0x1c],
            &[0x1d],
            &[0x1e],
            &[0x5f, 0x40, 0xff],
            &[],
        ];
        for bytes in heads {
            assert_eq!(head(bytes, 0), Err(malformed(0)), "{bytes:02x?}");
        }
        for at in [1, 2, usize::MAX] {
            assert_eq!(head(&[0], at), Err(malformed(at)), "{at}");
        }
        assert_eq!(head(&[0xff, 0x3b, 255, 255, 255, 255, 255, 255, 255, 255], 1).map(|h| h.value), Ok(u64::MAX));
    }

    #[test]
    fn range_comes_before_missing_bytes_and_content_last() {
        assert_eq!(run(&[0x58, 65], 0, BYTES, 1, 64), Err(out_of_bounds(0)));
        assert_eq!(run(&[0x58, 64], 0, BYTES, 1, 64), Err(malformed(0)));
        assert_eq!(run(&[0x98, 65], 0, BYTES, 1, 64), Err(malformed(0)));
        assert_eq!(run(&[0x40], 0, BYTES, 1, 64), Err(out_of_bounds(0)));
        assert_eq!(run(&[0x7b, 255, 255, 255, 255, 255, 255, 255, 255, 0], 0, TEXT, 0, u64::MAX), Err(malformed(0)));
        assert_eq!(run(&[0, 0x42, 7, 8, 9], 1, BYTES, 2, 2), Ok((2, 4)));
        assert_eq!(string(b"\x62!", 0, Class::Name, 1, 64), Err(malformed(0)));
        assert_eq!(string(b"\x62a!", 0, Class::Name, 1, 64), Err(malformed(1)));
        assert_eq!(string(b"\x62a!", 0, Class::Name, 3, 64), Err(out_of_bounds(0)));
    }

    #[test]
    fn each_class_holds_its_own_bytes() {
        let letters = "ABCDEFGHIJKLMNOPQRSTUVWXYZ";
        let name = format!("{letters}{}0123456789-._", letters.to_lowercase());
        let printable: String = ('!'..='~').collect();
        let members = [
            (Class::Name, name.as_str()),
            (Class::Printable, &printable),
            (Class::Upper, letters),
            (Class::Hex, "0123456789abcdef"),
        ];
        for (class, good) in members {
            for byte in 0..=255u8 {
                assert_eq!(class.admits(&[byte]), good.as_bytes().contains(&byte), "{class:?} {byte:02x}");
            }
            assert!(class.admits(b""), "{class:?}");
        }
        assert!(Class::Path.admits(b"/") && Class::Path.admits(b"/~!a"));
        assert!(!Class::Path.admits(b"") && !Class::Path.admits(b"a/") && !Class::Path.admits(b"/ "));
        assert_eq!(string(&[0x60], 0, Class::Path, 0, 9), Err(malformed(1)));
    }

    #[test]
    fn a_path_has_nothing_that_proxies_rewrite() {
        for path in ["/", "/a/", "/.a", "/a.", "/...", "/..a", "/a..", "/a/.b/", "/a/b..", "/.?x", "/-."] {
            assert!(Class::Path.admits(path.as_bytes()), "{path}");
        }
        for path in ["/%", "/a%2e", "//", "/a//", "//a", "/a//b", "/.", "/..", "/./", "/../", "/a/.", "/a/..", "/./a"] {
            assert!(!Class::Path.admits(path.as_bytes()), "{path}");
        }
        assert!(!Class::Path.admits(b"/a?x=//") && !Class::Path.admits(b"/a/../b") && !Class::Path.admits(b"/.../."));
        // No other class is touched.
        assert!(Class::Printable.admits(b"%//./..") && Class::Name.admits(b".") && Class::Name.admits(b".."));
    }
}
