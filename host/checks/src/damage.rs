//! What is done to a good tree to make bad ones: each edit changes one node, and every node of the
//! tree takes every edit that its type allows.

use crate::inputs::{self, EDGES, REFUSED};
use crate::tree::Node;

/// Lengths and counts about the limits that document 01 names, to be claimed and to be met.
const LIMITS: [u64; 27] = [
    0, 1, 2, 3, 4, 5, 6, 7, 15, 16, 17, 22, 23, 24, 31, 32, 33, 63, 64, 65, 127, 128, 129, 255, 256, 257, 4096,
];

/// Every key of the five maps, every t, and such as no map knows.
pub const NAMES: [&str; 37] = [
    "c", "r", "s", "v", "kid", "tid", "prefix", "methods", "max_bytes", "t", "burst", "per_s", "ns", "cbor",
    "name", "exp", "nbf", "aud", "method", "path_prefix", "ip_cidr", "bytes_le", "rate", "tenant", "amnesia",
    "gov_policy_digest", "custom", "", "x", "T", "V", "Exp", "exp ", "ex", "v\0", "max-bytes", "prefix\u{301}",
];

/// Items of each type, none of which says more than its head holds.
const TYPES: [&[u8]; 17] = [
    b"\x00", b"\x01", b"\x18\x41", b"\x20", b"\x38\x41", b"\x40", b"\x41a", b"\x60", b"\x61a", b"\x61/",
    b"\x80", b"\x81\x00", b"\x98\x41", b"\xa0", b"\xf4", b"\xf5", b"\xf6",
];

/// Shows `check` the tree with each edit of each node.
pub fn each(tree: &Node, mut check: impl FnMut(&[u8])) {
    let mut tree = tree.clone();
    for index in 0..tree.size() {
        let good = tree.node(index).clone();
        for (edited, cut) in edits(&good) {
            *tree.node(index) = edited;
            check(&tree.laid());
            if cut {
                check(&tree.laid_to(index));
            }
        }
        *tree.node(index) = good;
    }
}

/// The edits of one node; those of its head also go with nothing behind that head.
fn edits(node: &Node) -> Vec<(Node, bool)> {
    let mut edits: Vec<(Node, bool)> = heads(node).into_iter().map(|node| (node, true)).collect();
    let others = TYPES.iter().chain(&REFUSED).map(|item| Node::raw(item));
    edits.extend(others.map(|node| (node, false)));
    let inside = match node.major {
        2 | 3 => strings(node),
        4 => elements(node),
        5 => entries(node),
        _ => vec![],
    };
    edits.extend(inside.into_iter().map(|node| (node, false)));
    edits
}

/// The same under heads that say another number, or the same one in more bytes, or are of another
/// type or none.
fn heads(node: &Node) -> Vec<Node> {
    // The number's neighbours, and those that are the same number again in 8, 16 or 32 bits.
    let near = [u64::MAX, 1, 1 << 8, 1 << 16, 1 << 32].map(|step| node.number.wrapping_add(step));
    let mut heads: Vec<Node> =
        LIMITS.iter().chain(&EDGES).chain(&near).map(|&number| node.saying(number)).collect();
    for width in [1, 2, 4, 8] {
        let head = inputs::wide_head(node.major, node.number, width);
        // The shortest one is good, and a narrower one says another number that was not asked for.
        if head.len() > node.head.len() {
            heads.push(node.under(head));
        }
        heads.push(node.under(inputs::wide_head(node.major, u64::MAX >> (64 - 8 * width), width)));
    }
    heads.extend((28..32).map(|low| node.under(vec![node.major << 5 | low])));
    heads.extend((0..8).map(|major| node.under(inputs::head(major, node.number))));
    heads.push(node.under(vec![]));
    heads
}

/// Strings of every length about a limit, of the same bytes over and over; every name; and the same
/// string with one byte that no class, or not every class, allows.
fn strings(node: &Node) -> Vec<Node> {
    let make = if node.major == 2 { Node::bytes } else { Node::text };
    let source = if node.content.is_empty() { b"a" } else { &node.content[..] };
    let lengths = LIMITS.iter().map(|&length| {
        let content: Vec<u8> = source.iter().copied().cycle().take(length as usize).collect();
        make(&content)
    });
    let names = NAMES.iter().map(|name| make(name.as_bytes()));
    let mut strings: Vec<Node> = lengths.chain(names).collect();
    for byte in *b"/aGg0 -_.\0\x7f\x80\xff" {
        for at in [0, node.content.len() / 2, node.content.len().saturating_sub(1)] {
            let mut content = node.content.clone();
            if let Some(place) = content.get_mut(at) {
                *place = byte;
                strings.push(make(&content));
            }
        }
    }
    strings
}

/// Arrays with an element less or twice, the count kept or following.
fn elements(node: &Node) -> Vec<Node> {
    let mut arrays = Vec::new();
    for at in 0..node.items.len() {
        let mut fewer = node.items.clone();
        let element = fewer.remove(at);
        let mut more = node.items.clone();
        more.insert(at, element);
        arrays.extend([fewer, more].map(|items| node.holding(items)));
    }
    let kept: Vec<Node> = arrays.iter().map(|array| array.saying(node.number)).collect();
    arrays.extend(kept);
    arrays
}

/// Maps with an entry less, one more of the same or of a key that is not known, two entries changed
/// over; the count kept or following.
fn entries(node: &Node) -> Vec<Node> {
    let pairs: Vec<&[Node]> = node.items.chunks(2).collect();
    let unknown = [Node::text(b"x"), Node::number(0)];
    let mut lists: Vec<Vec<&[Node]>> = Vec::new();
    for at in 0..pairs.len() {
        let mut fewer = pairs.clone();
        fewer.remove(at);
        lists.push(fewer);
        for other in at + 1..pairs.len() {
            let mut swapped = pairs.clone();
            swapped.swap(at, other);
            lists.push(swapped);
        }
    }
    for pair in pairs.iter().copied().chain([&unknown[..]]) {
        for at in 0..=pairs.len() {
            let mut more = pairs.clone();
            more.insert(at, pair);
            lists.push(more);
            // In the place of another the count stays what the map wants.
            let mut instead = pairs.clone();
            if let Some(place) = instead.get_mut(at) {
                *place = pair;
                lists.push(instead);
            }
        }
    }
    let counted: Vec<Node> = lists.iter().map(|list| node.holding(list.concat())).collect();
    let kept: Vec<Node> = counted.iter().map(|map| map.saying(node.number)).collect();
    [counted, kept].concat()
}
