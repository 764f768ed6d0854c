//! Items of CBOR, good ones and such as the documents refuse, and the parts they are made of.

use crate::Seeded;

/// Numbers at which a head changes its width, and the ends of what it can say.
pub const EDGES: [u64; 18] = [
    0, 1, 22, 23, 24, 25, 254, 255, 256, 65_534, 65_535, 65_536, 0xffff_fffe, 0xffff_ffff, 0x1_0000_0000,
    1 << 63, u64::MAX - 1, u64::MAX,
];

/// Characters at which UTF-8 changes its width, beside the surrogates, and the last one of all.
const CHARACTERS: [char; 14] = [
    '\0', 'a', '\u{7f}', '\u{80}', '\u{7ff}', '\u{800}', '\u{fff}', '\u{d7ff}', '\u{e000}', '\u{feff}',
    '\u{ffff}', '\u{10000}', '\u{fffff}', '\u{10ffff}',
];

/// Bytes that are no UTF-8: lone tails, cut sequences, overlong forms, surrogates, past 10FFFF.
pub const BAD_UTF8: [&[u8]; 30] = [
    b"\x80", b"\xbf", b"\xc2", b"\xdf", b"\xe1\x80", b"\xef\xbf", b"\xf1\x80\x80", b"\xf4\x8f\xbf",
    b"\xc0\x80", b"\xc1\xbf", b"\xe0\x80\x80", b"\xe0\x9f\xbf", b"\xf0\x80\x80\x80", b"\xf0\x8f\xbf\xbf",
    b"\xed\xa0\x80", b"\xed\xaf\xbf", b"\xed\xb0\x80", b"\xed\xbf\xbf", b"\xed\xa0\x80\xed\xb0\x80",
    b"\xf4\x90\x80\x80", b"\xf4\xbf\xbf\xbf", b"\xf5\x80\x80\x80", b"\xf8\x88\x80\x80\x80",
    b"\xfc\x84\x80\x80\x80\x80", b"\xfe", b"\xff", b"\xc2\xc2\x80", b"\xe1\x80a", b"\xf1\x80\x80a", b"\xc2\xc0",
];

/// Items with no place in a custom value: maps, tags, simple values, floats, indefinite lengths and
/// their end, reserved low bits, long heads, cut ones.
pub const REFUSED: [&[u8]; 45] = [
    b"\xa0", b"\xa1\x00\x00", b"\xb8\x18", b"\xbb\xff\xff\xff\xff\xff\xff\xff\xff",
    b"\xc0\x00", b"\xc1\x00", b"\xd8\x18\x40", b"\xd9\xd9\xf7\x00",
    b"\xe0", b"\xf3", b"\xf7", b"\xf8\x14", b"\xf8\x16", b"\xf8\x18", b"\xf8\x20", b"\xf8\xff",
    b"\xf9\x00\x00", b"\xf9\x3c\x00", b"\xf9\x7e\x00", b"\xfa\x3f\x80\x00\x00",
    b"\xfb\x3f\xf0\x00\x00\x00\x00\x00\x00",
    b"\x1f", b"\x3f", b"\x5f\x41\x00\xff", b"\x7f\x61a\xff", b"\x9f\xff", b"\x9f\x00\xff",
    b"\xbf\xff", b"\xdf", b"\xff",
    b"\x1c", b"\x3d\x00", b"\x5e\x00", b"\x7c", b"\x9d\x00", b"\xfe",
    b"\x18\x17", b"\x39\x00\xff", b"\x58\x01a", b"\x78\x00", b"\x98\x00", b"\x9a\x00\x00\xff\xff",
    b"\x1b\x00\x00\x00\x00\xff\xff\xff\xff", b"\x19\x01", b"\x42\x00",
];

/// An edge, or a number of any width.
pub fn number(seeded: &mut Seeded) -> u64 {
    if seeded.below(2) == 0 {
        EDGES[seeded.below(EDGES.len())]
    } else {
        let shift = seeded.below(64);
        seeded.next() >> shift
    }
}

/// The shortest head of a number.
pub fn head(major: u8, value: u64) -> Vec<u8> {
    match value {
        0..=23 => vec![major << 5 | value as u8],
        24..=0xff => wide_head(major, value, 1),
        0x100..=0xffff => wide_head(major, value, 2),
        0x1_0000..=0xffff_ffff => wide_head(major, value, 4),
        _ => wide_head(major, value, 8),
    }
}

/// A head that says a number, or its last bytes, in 1, 2, 4 or 8 bytes, needed or not.
pub fn wide_head(major: u8, value: u64, width: usize) -> Vec<u8> {
    let mut bytes = vec![major << 5 | (24 + width.ilog2() as u8)];
    bytes.extend(&value.to_be_bytes()[8 - width..]);
    bytes
}

/// A string under its shortest head.
pub fn string(major: u8, content: &[u8]) -> Vec<u8> {
    let mut bytes = head(major, content.len() as u64);
    bytes.extend(content);
    bytes
}

/// The UTF-8 of up to eight characters.
pub fn utf8(seeded: &mut Seeded) -> Vec<u8> {
    let count = seeded.below(9);
    let text: String = (0..count).map(|_| character(seeded)).collect();
    text.into_bytes()
}

fn character(seeded: &mut Seeded) -> char {
    let any = char::from_u32(seeded.below(0x11_0000) as u32);
    match seeded.below(2) {
        0 => CHARACTERS[seeded.below(CHARACTERS.len())],
        // Surrogates are no characters.
        _ => any.unwrap_or('z'),
    }
}

/// A good custom value with arrays at most `levels` deep.
pub fn value(seeded: &mut Seeded, levels: usize) -> Vec<u8> {
    match seeded.below(if levels == 0 { 5 } else { 9 }) {
        0 => head(0, number(seeded)),
        1 => head(1, number(seeded)),
        2 => {
            let length = seeded.below(30);
            string(2, &seeded.bytes(length))
        }
        3 => string(3, &utf8(seeded)),
        4 => vec![0xf4 + seeded.below(3) as u8],
        _ => {
            let count = seeded.below(6);
            let elements: Vec<_> = (0..count).map(|_| value(seeded, levels - 1)).collect();
            array(&elements)
        }
    }
}

pub fn array(elements: &[Vec<u8>]) -> Vec<u8> {
    let mut bytes = head(4, elements.len() as u64);
    bytes.extend(elements.concat());
    bytes
}

/// An item inside `levels` arrays, of one element each or, where `count` is larger, cut off behind it.
pub fn nested(levels: usize, count: u64, inner: &[u8]) -> Vec<u8> {
    let mut bytes = head(4, count).repeat(levels);
    bytes.extend(inner);
    bytes
}

pub fn hex(bytes: &[u8]) -> String {
    bytes.iter().map(|byte| format!("{byte:02x}")).collect()
}
