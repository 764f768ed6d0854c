//! Good scopes, caveats of each kind and tokens, as trees from a seed. Lengths and counts are often
//! those at an end of what document 01 allows.

use crate::inputs;
use crate::strings::{digest, method, name, path, printable};
use crate::tree::Node;
use crate::Seeded;

/// The names of the twelve kinds of caveats, in the order in which the probe numbers them.
pub const KINDS: [&str; 12] = [
    "exp", "nbf", "aud", "method", "path_prefix", "ip_cidr", "bytes_le", "rate", "tenant", "amnesia",
    "gov_policy_digest", "custom",
];

/// How long a prefix may be.
const PREFIX: usize = 256;

fn address(seeded: &mut Seeded) -> Vec<u8> {
    let size = seeded.below(33) as u32;
    let kept = (u64::from(u32::MAX) << (32 - size)) as u32;
    let [a, b, c, d] = (seeded.next() as u32 & kept).to_be_bytes();
    format!("{a}.{b}.{c}.{d}/{size}").into_bytes()
}

pub fn methods(count: usize, seeded: &mut Seeded) -> Node {
    Node::array((0..count).map(|_| Node::text(&method(seeded))).collect())
}

fn some_methods(seeded: &mut Seeded) -> Node {
    let count = [0, 1, 1, 2, 3, 4, 15, 16][seeded.below(8)];
    methods(count, seeded)
}

/// A custom value with arrays at most `levels` deep.
pub fn value(levels: usize, seeded: &mut Seeded) -> Node {
    match seeded.below(if levels == 0 { 5 } else { 8 }) {
        0 => Node::number(inputs::number(seeded)),
        1 => Node::negative(inputs::number(seeded)),
        2 => {
            let length = seeded.below(30);
            Node::bytes(&seeded.bytes(length))
        }
        3 => Node::text(&inputs::utf8(seeded)),
        4 => Node::simple(20 + seeded.below(3) as u64),
        _ => {
            let count = seeded.below(4);
            Node::array((0..count).map(|_| value(levels - 1, seeded)).collect())
        }
    }
}

/// An item inside `levels` arrays of one element.
pub fn nested(levels: usize, inner: Node) -> Node {
    (0..levels).fold(inner, |inner, _| Node::array(vec![inner]))
}

pub fn rate(burst: u64, per_s: u64) -> Node {
    Node::map(vec![("burst", Node::number(burst)), ("per_s", Node::number(per_s))])
}

pub fn custom(value: Node, seeded: &mut Seeded) -> Node {
    let (ns, name) = (Node::text(&name(seeded)), Node::text(&name(seeded)));
    Node::map(vec![("ns", ns), ("cbor", value), ("name", name)])
}

/// A value that goes with a kind.
pub fn demand(kind: usize, seeded: &mut Seeded) -> Node {
    let small = |seeded: &mut Seeded| inputs::number(seeded) & 0xffff_ffff;
    match KINDS[kind] {
        "exp" | "nbf" | "bytes_le" => Node::number(inputs::number(seeded)),
        "aud" => Node::text(&printable(128, seeded)),
        "method" => some_methods(seeded),
        "path_prefix" => Node::text(&path(PREFIX, seeded)),
        "ip_cidr" => Node::text(&address(seeded)),
        "rate" => rate(small(seeded), small(seeded)),
        "tenant" => Node::text(&name(seeded)),
        "amnesia" => Node::simple(20 + seeded.below(2) as u64),
        "gov_policy_digest" => Node::text(&digest(seeded)),
        _ => {
            let levels = seeded.below(5);
            let value = value(levels, seeded);
            custom(value, seeded)
        }
    }
}

pub fn caveat_of(t: &str, v: Node) -> Node {
    Node::map(vec![("t", Node::text(t.as_bytes())), ("v", v)])
}

pub fn caveat(kind: usize, seeded: &mut Seeded) -> Node {
    caveat_of(KINDS[kind], demand(kind, seeded))
}

pub fn scope(seeded: &mut Seeded) -> Node {
    let mut entries = vec![("methods", some_methods(seeded))];
    if seeded.below(2) == 0 {
        entries.insert(0, ("prefix", Node::text(&path(PREFIX, seeded))));
    }
    if seeded.below(2) == 0 {
        entries.push(("max_bytes", Node::number(inputs::number(seeded))));
    }
    Node::map(entries)
}

/// A token with caveats of all kinds in turn, beginning anywhere among them.
pub fn token(count: usize, seeded: &mut Seeded) -> Node {
    let first = seeded.below(KINDS.len());
    let caveats = (0..count).map(|place| caveat((first + place) % KINDS.len(), seeded)).collect();
    token_of(caveats, scope(seeded), seeded)
}

pub fn token_of(caveats: Vec<Node>, scope: Node, seeded: &mut Seeded) -> Node {
    Node::map(vec![
        ("c", Node::array(caveats)),
        ("r", scope),
        ("s", Node::bytes(&seeded.bytes(32))),
        ("v", Node::number(1)),
        ("kid", Node::text(&name(seeded))),
        ("tid", Node::text(&name(seeded))),
    ])
}
