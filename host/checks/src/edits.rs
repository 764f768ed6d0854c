//! What is done to a good input to make others near it, where slips of a reader show best.

use crate::inputs;
use crate::Seeded;

/// Up to this length each byte takes all its other values; in longer inputs each takes `FEW`.
const SHORT: usize = 24;
const FEW: usize = 3;

/// The input without its last byte, without its last two, and so on down to nothing.
pub fn cuts(bytes: &[u8]) -> impl Iterator<Item = &[u8]> {
    (0..bytes.len()).rev().map(|length| &bytes[..length])
}

/// Shows `check` the input with one byte changed, for each byte in turn.
pub fn changes(bytes: &[u8], seeded: &mut Seeded, mut check: impl FnMut(&[u8])) {
    let mut edited = bytes.to_vec();
    for at in 0..bytes.len() {
        for value in other_values(bytes[at], bytes.len() <= SHORT, seeded) {
            edited[at] = value;
            check(&edited);
        }
        edited[at] = bytes[at];
    }
}

fn other_values(byte: u8, all: bool, seeded: &mut Seeded) -> Vec<u8> {
    if all {
        (1..=255).map(|mask| byte ^ mask).collect()
    } else {
        (0..FEW).map(|_| byte ^ (1 + seeded.below(255) as u8)).collect()
    }
}

/// The input with a few bytes changed, put in or taken out, anywhere.
pub fn spoiled(bytes: &[u8], seeded: &mut Seeded) -> Vec<u8> {
    let mut edited = bytes.to_vec();
    for _ in 0..=seeded.below(3) {
        let at = seeded.below(edited.len() + 1);
        match seeded.below(3) {
            0 => edited.insert(at, seeded.next() as u8),
            1 if at < edited.len() => drop(edited.remove(at)),
            _ if at < edited.len() => edited[at] = seeded.next() as u8,
            _ => edited.push(seeded.next() as u8),
        }
    }
    edited
}

/// The input between bytes that are not its own, and the place where it begins.
pub fn embedded(bytes: &[u8], seeded: &mut Seeded) -> (Vec<u8>, usize) {
    let before = seeded.below(5);
    let mut all = seeded.bytes(before);
    all.extend(bytes);
    let behind = seeded.below(5);
    all.extend(seeded.bytes(behind));
    (all, before)
}

/// Places in, at the end of and past an input of `length` bytes, to where a place and a head's width
/// together pass the top of usize.
pub fn places(length: usize) -> Vec<usize> {
    let far = [1 << 16, u32::MAX as usize - 1, u32::MAX as usize, 1 << 32, (1 << 32) + 1, 1 << 63];
    let inside = 0..=length + 2;
    inside.chain(far).chain(usize::MAX - 10..=usize::MAX).collect()
}

/// One of the maps that `maps` makes.
pub struct Keyed<'a> {
    pub bytes: Vec<u8>,
    pub keys: &'a [&'a str],
    /// Whether its count is that of its keys, and all its values are good.
    pub whole: bool,
}

/// Shows `check` a map of every sequence of up to `most` of these keys, under every count about that,
/// with good values and with each of them spoiled in turn.
pub fn maps(keys: &[&str], most: usize, good: impl Fn(&str) -> Vec<u8>, mut check: impl FnMut(Keyed)) {
    for keys in &sequences(keys, most) {
        for bad in 0..=keys.len() {
            let mut entries = Vec::new();
            for (place, &key) in keys.iter().enumerate() {
                entries.extend(inputs::string(3, key.as_bytes()));
                entries.extend(if place == bad { vec![0xff] } else { good(key) });
            }
            for count in 0..=most + 1 {
                let bytes = [inputs::head(5, count as u64), entries.clone()].concat();
                check(Keyed { bytes, keys, whole: count == keys.len() && bad == keys.len() });
            }
        }
    }
}

fn sequences<'a>(names: &[&'a str], most: usize) -> Vec<Vec<&'a str>> {
    let mut all = vec![vec![]];
    let mut longest = all.clone();
    for _ in 0..most {
        let longer = |front: &Vec<&'a str>, name: &'a str| [&front[..], &[name]].concat();
        longest = longest.iter().flat_map(|front| names.iter().map(move |&name| longer(front, name))).collect();
        all.extend(longest.iter().cloned());
    }
    all
}
