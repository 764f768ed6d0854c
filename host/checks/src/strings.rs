//! Good strings of each class, from a seed, and others near one. Lengths are often those at an end of what
//! document 01 allows.

use crate::Seeded;

pub const NAME: &[u8] = b"ABCDEFGHIJKLMNOPQRSTUVWXYZabcdefghijklmnopqrstuvwxyz0123456789-._";
pub const UPPER: &[u8] = b"ABCDEFGHIJKLMNOPQRSTUVWXYZ";
pub const HEX: &[u8] = b"0123456789abcdef";

pub fn of(alphabet: &[u8], length: usize, seeded: &mut Seeded) -> Vec<u8> {
    (0..length).map(|_| alphabet[seeded.below(alphabet.len())]).collect()
}

/// A length of 1 to `most`: one at an end of a range or where heads grow, or a small one.
fn length(most: usize, seeded: &mut Seeded) -> usize {
    let ends = [1, 2, 23, 24, most - 1, most];
    match seeded.below(4) {
        0 => ends[seeded.below(ends.len())].clamp(1, most),
        _ => 1 + seeded.below(most.min(12)),
    }
}

pub fn name(seeded: &mut Seeded) -> Vec<u8> {
    let length = length(64, seeded);
    of(NAME, length, seeded)
}

pub fn method(seeded: &mut Seeded) -> Vec<u8> {
    let length = length(16, seeded);
    of(UPPER, length, seeded)
}

pub fn digest(seeded: &mut Seeded) -> Vec<u8> {
    of(HEX, 64, seeded)
}

pub fn printable(most: usize, seeded: &mut Seeded) -> Vec<u8> {
    (0..length(most, seeded)).map(|_| b'!' + seeded.below(94) as u8).collect()
}

/// A path of many segments, since prefixes end where these do: a slash stands for each upper case letter.
pub fn path(most: usize, seeded: &mut Seeded) -> Vec<u8> {
    let mut path = printable(most, seeded);
    path.iter_mut().filter(|byte| byte.is_ascii_uppercase()).for_each(|byte| *byte = b'/');
    path[0] = b'/';
    cleaned(path)
}

/// A path that begins with "/", with something else where proxies would rewrite it (document 02, M-106): "$"
/// for "%", and "_" for the second of two slashes and for the last dot of a segment "." or "..".
pub fn cleaned(mut path: Vec<u8>) -> Vec<u8> {
    for at in 1..path.len() {
        match path[at] {
            b'%' => path[at] = b'$',
            b'/' if path[at - 1] == b'/' => path[at] = b'_',
            _ => {}
        }
    }
    for at in 1..path.len() {
        let ends = path.get(at + 1).map_or(true, |&next| next == b'/');
        if ends && (path[..=at].ends_with(b"/.") || path[..=at].ends_with(b"/..")) {
            path[at] = b'_';
        }
    }
    path
}

/// What a proxy makes of a path: slashes in a row become one, a segment "." goes, and ".." takes the one before
/// it away. RFC 3986, 5.2.4, and what is done besides; a percent sign is left, since what it stands for is not known.
pub fn proxied(path: &[u8]) -> Vec<u8> {
    let mut kept: Vec<&[u8]> = Vec::new();
    let segments: Vec<&[u8]> = path.split(|&byte| byte == b'/').skip(1).collect();
    for (at, &segment) in segments.iter().enumerate() {
        let last = at + 1 == segments.len();
        match segment {
            b".." => drop(kept.pop()),
            b"." | b"" => {}
            _ => kept.push(segment),
        }
        if last && matches!(segment, b"" | b"." | b"..") {
            kept.push(b"");
        }
    }
    kept.iter().flat_map(|segment| [&b"/"[..], segment].concat()).collect()
}

/// Whether a text of printable bytes that begins with "/" comes through every proxy as it is.
pub fn comes_through(path: &[u8]) -> bool {
    !path.contains(&b'%') && proxied(path) == path
}

/// Another text near this one, of at most `most` bytes: with one byte more, one less or another one, or a
/// letter in the other case, unless only upper case may come.
pub fn other(text: &[u8], fillers: [u8; 2], most: usize, seeded: &mut Seeded) -> Vec<u8> {
    let mut others = Vec::new();
    if text.len() < most {
        others.push([text, &fillers[..1]].concat());
    }
    if text.len() > 1 {
        others.push(text[..text.len() - 1].to_vec());
    }
    for at in [0, text.len() / 2, text.len() - 1] {
        let mut changed = text.to_vec();
        changed[at] = if text[at] == fillers[0] { fillers[1] } else { fillers[0] };
        others.push(changed);
    }
    let letter = text.iter().position(u8::is_ascii_alphabetic);
    if let Some(at) = letter.filter(|_| !fillers[0].is_ascii_uppercase()) {
        let mut changed = text.to_vec();
        changed[at] ^= 0x20;
        others.push(changed);
    }
    others.swap_remove(seeded.below(others.len()))
}

pub fn other_name(text: &[u8], seeded: &mut Seeded) -> Vec<u8> {
    other(text, *b"x-", 64, seeded)
}
