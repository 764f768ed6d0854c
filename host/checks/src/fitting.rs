//! Scopes and caveats for a request, such as hold and such as do not. Their limits are near what the
//! request says, since it is there that slips of a rule show.

use crate::requests::Request;
use crate::strings::{cleaned, digest, method, other, other_name, printable};
use crate::tree::Node;
use crate::trees::{self, caveat_of, KINDS};
use crate::Seeded;

/// The answers to caveats of the twelve kinds that do not hold, in the order of `KINDS`.
pub const NUMBERS: [u32; 12] = [13, 14, 15, 10, 11, 16, 12, 17, 18, 19, 20, 21];

const PREFIX: usize = 256;

/// One of some candidates.
fn one<T>(mut candidates: Vec<T>, seeded: &mut Seeded) -> T {
    let at = seeded.below(candidates.len());
    candidates.swap_remove(at)
}

/// The least number, one more, a little or much more, and the next that is 0 again in 16 bits.
fn at_least(least: u64, seeded: &mut Seeded) -> u64 {
    let little = least.saturating_add(seeded.below(400) as u64);
    let much = least | seeded.next();
    let round = (least | 0xffff).saturating_add(1);
    one(vec![least, least, least.saturating_add(1), little, much, round, u64::MAX], seeded)
}

/// The greatest number, one less, a little or much less.
fn at_most(most: u64, seeded: &mut Seeded) -> u64 {
    let little = most.saturating_sub(seeded.below(400) as u64);
    let much = most & seeded.next();
    one(vec![most, most, most.saturating_sub(1), little, much, most & !0xffff, 0], seeded)
}

fn below(bound: u64, seeded: &mut Seeded) -> Option<u64> {
    Some(at_most(bound.checked_sub(1)?, seeded))
}

fn above(bound: u64, seeded: &mut Seeded) -> Option<u64> {
    Some(at_least(bound.checked_add(1)?, seeded))
}

/// Methods with the request's among them, more than once at times.
fn methods_with(request: &Request, seeded: &mut Seeded) -> Node {
    let count = [1, 1, 2, 3, 15, 16][seeded.below(6)];
    let mut methods: Vec<Node> = (0..count).map(|_| Node::text(&method(seeded))).collect();
    for _ in 0..=seeded.below(2) {
        methods[seeded.below(count)] = Node::text(&request.method);
    }
    Node::array(methods)
}

/// No methods, or methods near the request's, more than once at times.
fn methods_without(request: &Request, seeded: &mut Seeded) -> Node {
    let count = [0, 0, 1, 2, 3, 16][seeded.below(6)];
    let near: Vec<Vec<u8>> = (0..3).map(|_| other(&request.method, *b"XY", 16, seeded)).collect();
    Node::array((0..count).map(|_| Node::text(&near[seeded.below(3)])).collect())
}

/// How many of a path's first bytes may be a prefix, those that fit it and those that do not: it fits where
/// the path ends, and where a "/" stands last or next.
pub fn lengths(path: &[u8]) -> (Vec<usize>, Vec<usize>) {
    let at_edge = |&n: &usize| n == path.len() || path[n - 1..=n].contains(&b'/');
    (1..=path.len().min(PREFIX)).partition(at_edge)
}

/// The longest prefix that fits a path.
fn longest_prefix(path: &[u8]) -> &[u8] {
    let (fit, _) = lengths(path);
    &path[..*fit.last().expect("a path begins with a slash, which fits it")]
}

/// The first bytes of the path, where a prefix may end: one, the most that there can be, or any number.
fn prefix_of(request: &Request, seeded: &mut Seeded) -> Node {
    let (fit, _) = lengths(&request.path);
    let longest = fit[fit.len() - 1];
    let length = one(vec![fit[0], longest, longest, fit[seeded.below(fit.len())]], seeded);
    Node::text(&request.path[..length])
}

/// A prefix that does not fit the path: the path goes on behind it within a segment; or its last byte or one
/// in the middle is another one, of which a letter only changes its case; or the path is shorter.
fn no_prefix_of(request: &Request, seeded: &mut Seeded) -> Node {
    let path = &request.path;
    let longest = path.len().min(PREFIX);
    let (_, cuts) = lengths(path);
    let some = [cuts.first(), cuts.get(cuts.len() / 2), cuts.last()];
    let mut prefixes: Vec<Vec<u8>> = some.into_iter().flatten().map(|&length| path[..length].to_vec()).collect();
    if path.len() < PREFIX {
        prefixes.push([path, &b"x"[..]].concat());
        let next = if path.ends_with(b"/") { b"y" } else { b"/" };
        prefixes.push([path, &next[..]].concat());
    }
    if longest > 1 {
        let length = 2 + seeded.below(longest - 1);
        for at in [length - 1, 1 + seeded.below(length - 1)] {
            let mut prefix = path[..length].to_vec();
            prefix[at] = match prefix[at] {
                letter if letter.is_ascii_alphabetic() => letter ^ 0x20,
                _ => b'x',
            };
            prefixes.push(prefix);
        }
    }
    // Within a segment "/.a" lies "/.", which no prefix may be.
    let prefixes: Vec<Vec<u8>> = prefixes.into_iter().map(cleaned).collect();
    Node::text(&one(prefixes, seeded))
}

fn written_address(address: u32, size: u32) -> Node {
    let [a, b, c, d] = address.to_be_bytes();
    Node::text(format!("{a}.{b}.{c}.{d}/{size}").as_bytes())
}

fn first_bits(address: u32, size: u32) -> u32 {
    address & (u64::from(u32::MAX) << (32 - size)) as u32
}

/// The peer's network of any size.
fn address_with(request: &Request, seeded: &mut Seeded) -> Option<Node> {
    let peer = u32::from_be_bytes(request.peer?);
    let size = seeded.below(33) as u32;
    Some(written_address(first_bits(peer, size), size))
}

/// The network beside the peer's, or one that differs in any bit; without a peer, often all addresses.
fn address_without(request: &Request, seeded: &mut Seeded) -> Node {
    let Some(peer) = request.peer.map(u32::from_be_bytes) else {
        let size = [0, 0, seeded.below(33)][seeded.below(3)] as u32;
        return written_address(first_bits(seeded.next() as u32, size), size);
    };
    let size = 1 + seeded.below(32) as u32;
    let bit = one(vec![size, size, 1, 1 + seeded.below(size as usize) as u32], seeded);
    written_address(first_bits(peer, size) ^ 1 << (32 - bit), size)
}

/// Numbers that the stated rate does not exceed.
fn rate_with(request: &Request, seeded: &mut Seeded) -> Option<Node> {
    let rate = request.rate?;
    let least = |number: u32, seeded: &mut Seeded| at_least(number.into(), seeded).min(u32::MAX.into());
    Some(trees::rate(least(rate.burst, seeded), least(rate.per_s, seeded)))
}

/// Numbers of which one, or each, is exceeded; without a rate, any.
fn rate_without(request: &Request, seeded: &mut Seeded) -> Option<Node> {
    let most = u64::from(u32::MAX);
    let Some(rate) = request.rate else {
        let number = |seeded: &mut Seeded| one(vec![most, 0, seeded.next() & most], seeded);
        return Some(trees::rate(number(seeded), number(seeded)));
    };
    let mut burst = at_least(rate.burst.into(), seeded).min(most);
    let mut per_s = at_least(rate.per_s.into(), seeded).min(most);
    let exceeded = [below(rate.burst.into(), seeded), below(rate.per_s.into(), seeded)];
    let which = seeded.below(3);
    match exceeded {
        [Some(less), _] if which != 1 => burst = less,
        [_, Some(less)] => per_s = less,
        [Some(less), _] => burst = less,
        _ => return None,
    }
    if which == 2 {
        per_s = exceeded[1].unwrap_or(per_s);
    }
    Some(trees::rate(burst, per_s))
}

/// A caveat of this kind that holds, if any does. The request's tenant is the token's tid.
pub fn holding(kind: usize, request: &Request, seeded: &mut Seeded) -> Option<Node> {
    let skew = u64::from(request.skew);
    let v = match KINDS[kind] {
        "exp" => Node::number(at_least(request.now.saturating_sub(skew), seeded)),
        "nbf" => Node::number(at_most(request.now.saturating_add(skew), seeded)),
        "aud" => Node::text(request.audience.as_ref()?),
        "method" => methods_with(request, seeded),
        "path_prefix" => prefix_of(request, seeded),
        "ip_cidr" => address_with(request, seeded)?,
        "bytes_le" => Node::number(at_least(request.body_size, seeded)),
        "rate" => rate_with(request, seeded)?,
        "tenant" => Node::text(&request.tenant),
        "amnesia" => Node::simple(20 + u64::from(request.amnesia && seeded.below(2) == 0)),
        "gov_policy_digest" => Node::text(request.digest.as_ref()?),
        _ => return None,
    };
    Some(caveat_of(KINDS[kind], v))
}

/// A caveat of this kind that does not hold, if there is one, whatever it is that the request lacks.
pub fn failing(kind: usize, request: &Request, seeded: &mut Seeded) -> Option<Node> {
    let skew = u64::from(request.skew);
    let v = match KINDS[kind] {
        "exp" => Node::number(below(request.now.saturating_sub(skew), seeded)?),
        "nbf" => Node::number(above(request.now.checked_add(skew)?, seeded)?),
        "aud" => match &request.audience {
            Some(audience) => Node::text(&other(audience, *b"!~", 128, seeded)),
            None => Node::text(&printable(128, seeded)),
        },
        "method" => methods_without(request, seeded),
        "path_prefix" => no_prefix_of(request, seeded),
        "ip_cidr" => address_without(request, seeded),
        "bytes_le" => Node::number(below(request.body_size, seeded)?),
        "rate" => rate_without(request, seeded)?,
        "tenant" => Node::text(&other_name(&request.tenant, seeded)),
        "amnesia" => (!request.amnesia).then(|| Node::simple(21))?,
        "gov_policy_digest" => Node::text(&other_digest(request, seeded)),
        _ => {
            let value = trees::value(seeded.below(5), seeded);
            trees::custom(value, seeded)
        }
    };
    Some(caveat_of(KINDS[kind], v))
}

/// The narrowest caveat of this kind that holds, if any does: the least change to it makes it fail.
pub fn narrowest(kind: usize, request: &Request) -> Option<Node> {
    let skew = u64::from(request.skew);
    let v = match KINDS[kind] {
        "exp" => Node::number(request.now.saturating_sub(skew)),
        "nbf" => Node::number(request.now.saturating_add(skew)),
        "aud" => Node::text(request.audience.as_ref()?),
        "method" => Node::array(vec![Node::text(&request.method)]),
        "path_prefix" => Node::text(longest_prefix(&request.path)),
        "ip_cidr" => written_address(u32::from_be_bytes(request.peer?), 32),
        "bytes_le" => Node::number(request.body_size),
        "rate" => trees::rate(request.rate?.burst.into(), request.rate?.per_s.into()),
        "tenant" => Node::text(&request.tenant),
        "amnesia" => Node::simple(20 + u64::from(request.amnesia)),
        "gov_policy_digest" => Node::text(request.digest.as_ref()?),
        _ => return None,
    };
    Some(caveat_of(KINDS[kind], v))
}

/// The narrowest scope, of all three keys.
pub fn narrowest_scope(request: &Request) -> Node {
    Node::map(vec![
        ("prefix", Node::text(longest_prefix(&request.path))),
        ("methods", Node::array(vec![Node::text(&request.method)])),
        ("max_bytes", Node::number(request.body_size)),
    ])
}

fn other_digest(request: &Request, seeded: &mut Seeded) -> Vec<u8> {
    let Some(stated) = &request.digest else { return digest(seeded) };
    let mut other = stated.clone();
    let at = [0, 63, seeded.below(64)][seeded.below(3)];
    other[at] = if other[at] == b'0' { b'1' } else { b'0' };
    other
}

/// A caveat of any kind that holds; of a kind that needs nothing of the request if the first has none.
pub fn any_holding(request: &Request, seeded: &mut Seeded) -> Node {
    loop {
        let kind = seeded.below(KINDS.len());
        if let Some(caveat) = holding(kind, request, seeded) {
            return caveat;
        }
    }
}

/// Which of the scope's three rules is broken.
#[derive(Clone, Copy, Debug, Default, PartialEq, Eq)]
pub struct Broken {
    pub method: bool,
    pub path: bool,
    pub bytes: bool,
}

/// A scope that breaks these rules and no other; bytes can be broken only by a body that is not empty.
pub fn scope(broken: Broken, request: &Request, seeded: &mut Seeded) -> Node {
    let methods = if broken.method { methods_without(request, seeded) } else { methods_with(request, seeded) };
    let mut entries = vec![("methods", methods)];
    if broken.path {
        entries.insert(0, ("prefix", no_prefix_of(request, seeded)));
    } else if seeded.below(2) == 0 {
        entries.insert(0, ("prefix", prefix_of(request, seeded)));
    }
    if let (true, Some(less)) = (broken.bytes, below(request.body_size, seeded)) {
        entries.push(("max_bytes", Node::number(less)));
    } else if seeded.below(2) == 0 {
        entries.push(("max_bytes", Node::number(at_least(request.body_size, seeded))));
    }
    Node::map(entries)
}
