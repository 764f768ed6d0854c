//! Strings, lists, addresses, rates and custom values, good at their limits and bad just past them.

use super::parts::{
    asked_with, custom, fresh, field, idle, methods, one, row, scope_of, scoped, verify, with, words, Verify,
};
use crate::cases::{fill, Case};
use crate::tree::Node;
use crate::trees::{caveat_of, nested, rate};

pub fn cases() -> Vec<Verify> {
    [ids(), tags(), strings(), lists(), sizes(), addresses(), rates(), truths(), values(), depths()].concat()
}

fn ids() -> Vec<Verify> {
    let tid = |value| field("tid", value);
    let (long_tid, long_kid) = ("x".repeat(64), "k".repeat(64));
    let mut longest = fresh();
    longest.row = row(&long_tid, &long_kid);
    longest.rows.push(longest.row.clone());
    longest.request.tenant = long_tid.into();
    vec![
        verify(0, "ids-64", "the longest tid and kid", longest.laid()),
        verify(5, "tid-65-missing", "65 characters, none there: the range comes first", tid(words("").saying(65))),
        verify(4, "tid-64-missing", "64 characters, and none there", tid(words("").saying(64))),
        verify(5, "tid-empty", "an empty tid", tid(words(""))),
        verify(4, "tid-blank", "a blank in the tid", tid(words("work shop"))),
        verify(4, "tid-array-65", "an array of 65: the type comes before any range", tid(Node::raw(b"\x98\x41"))),
        verify(5, "kid-65", "a kid of 65 characters", field("kid", words(&"k".repeat(65)))),
    ]
}

/// What stands in place of the tag, before any key is looked up.
fn tags() -> Vec<Verify> {
    vec![
        verify(4, "s-31", "a tag of 31 bytes: s has no range of its own", field("s", Node::bytes(&[0; 31]))),
        verify(4, "s-33", "a tag of 33 bytes", field("s", Node::bytes(&[0; 33]))),
        verify(4, "s-text", "a text of 32 bytes", field("s", Node::text(&[b'0'; 32]))),
    ]
}

fn strings() -> Vec<Verify> {
    let audience = |length: usize| {
        let aud = "a".repeat(length);
        asked_with("aud", words(&aud), |request| request.audience = Some(b"a".repeat(length.clamp(1, 128))))
    };
    let path = |length: usize| {
        let path = format!("/relay/1{}", "/7".repeat(180));
        asked_with("path_prefix", words(&path[..length]), |request| request.path = path.clone().into())
    };
    let digest = |digest: &str| one("gov_policy_digest", words(digest));
    vec![
        verify(0, "aud-128", "the longest audience", audience(128)),
        verify(5, "aud-129", "an audience that is too long", audience(129)),
        verify(5, "aud-empty", "an empty audience", audience(0)),
        verify(4, "aud-blank", "a blank in the audience", one("aud", words("relay 1"))),
        verify(0, "path_prefix-256", "the longest prefix", path(256)),
        verify(5, "path_prefix-257", "a prefix that is too long", path(257)),
        verify(4, "path_prefix-relative", "no slash in front", one("path_prefix", words("relay"))),
        verify(4, "path_prefix-percent", "% anywhere", one("path_prefix", words("/relay/%31"))),
        verify(4, "path_prefix-slashes", "//", one("path_prefix", words("/relay//1"))),
        verify(4, "path_prefix-dot-last", "the last segment is .", one("path_prefix", words("/relay/."))),
        verify(4, "path_prefix-dots", "a segment ..", one("path_prefix", words("/relay/../1"))),
        verify(4, "digest-63", "63 digits: a digest has no range of its own", digest(&"0".repeat(63))),
        verify(4, "digest-65", "65 digits", digest(&"0".repeat(65))),
        verify(4, "digest-upper", "digits in upper case", digest(&"A".repeat(64))),
    ]
}

/// Lists of methods, and of caveats.
fn lists() -> Vec<Verify> {
    let list = |count: usize| scoped(scope_of(None, &vec!["GET"; count], None));
    let long = "G".repeat(17);
    let idles = |count: usize| Node::array(vec![idle(); count]);
    vec![
        verify(0, "methods-16", "as many methods as there may be, all the same", list(16)),
        verify(5, "methods-17", "one method more", list(17)),
        verify(5, "methods-17-missing", "17 methods, and none there", scoped(Node::raw(b"\xa1\x67methods\x91"))),
        verify(5, "method-17-letters", "a method that is too long", scoped(scope_of(None, &["GET", &long], None))),
        verify(5, "method-empty", "an empty method", one("method", methods(&["GET", ""]))),
        verify(4, "method-lower", "a method in lower case", one("method", methods(&["GET", "put"]))),
        verify(0, "caveats-23", "the last count that stands in one byte", with(vec![idle(); 23])),
        verify(0, "caveats-24", "the first count that takes a byte more", with(vec![idle(); 24])),
        verify(0, "caveats-64", "as many caveats as there may be", with(vec![idle(); 64])),
        verify(5, "caveats-65", "one caveat more", field("c", idles(65))),
        verify(5, "caveats-65-missing", "65 caveats, and none there", field("c", Node::array(vec![]).saying(65))),
    ]
}

fn sizes() -> Vec<Verify> {
    let mut case = fresh();
    case.request.path = [&b"/relay/1"[..], &b"/7".repeat(180)].concat();
    fill(&mut case, 4096);
    vec![verify(0, "token-4096", "the longest token: 4,096 bytes, 5,462 characters", case.laid())]
}

fn addresses() -> Vec<Verify> {
    let of = |cidr: &str| one("ip_cidr", words(cidr));
    vec![
        verify(4, "cidr-bit-past", "10.0.0.1/8 has a bit past the eighth", of("10.0.0.1/8")),
        verify(4, "cidr-leading-zero", "a number with a zero in front", of("010.0.0.0/8")),
        verify(4, "cidr-size-leading-zero", "a size with a zero in front", of("10.0.0.0/08")),
        verify(4, "cidr-size-33", "more bits than an address has", of("10.1.2.3/33")),
        verify(4, "cidr-256", "a number over 255", of("256.0.0.0/8")),
        verify(4, "cidr-three-numbers", "three numbers", of("10.0.0/8")),
        verify(4, "cidr-no-size", "an address alone", of("10.1.2.3")),
        verify(4, "cidr-empty", "no text: ip_cidr has no range, and is judged as content", of("")),
        verify(4, "cidr-300", "300 characters, judged as content too", of(&"1".repeat(300))),
        verify(0, "cidr-0", "no bit counts, and there is a peer", of("0.0.0.0/0")),
        verify(0, "cidr-31", "10.1.2.3 is one of two", of("10.1.2.2/31")),
        verify(0, "cidr-32", "all bits agree", of("10.1.2.3/32")),
    ]
}

fn rates() -> Vec<Verify> {
    let most = u64::from(u32::MAX);
    let broken = Node::raw(b"\xa2\x65burst\x1b\0\0\0\x01\0\0\0\0\xff");
    vec![
        verify(0, "rate-most", "both numbers 2^32 - 1", one("rate", rate(most, most))),
        verify(5, "rate-burst-2-32", "a burst of 2^32", one("rate", rate(most + 1, 5))),
        verify(5, "rate-per_s-2-32", "a per_s of 2^32", one("rate", rate(10, most + 1))),
        verify(5, "rate-burst-hides", "a burst of 2^32, and no item behind it", one("rate", broken)),
        verify(4, "rate-negative", "a burst of -1", one("rate", Node::raw(b"\xa2\x65burst\x20\x65per_s\x05"))),
    ]
}

fn truths() -> Vec<Verify> {
    vec![
        verify(4, "amnesia-null", "null is neither true nor false", one("amnesia", Node::simple(22))),
        verify(4, "amnesia-long", "f8 14 is a long form of false", one("amnesia", Node::raw(b"\xf8\x14"))),
    ]
}

/// A custom caveat never holds, whatever its value is; of each kind one that is good, and some that are not.
fn values() -> Vec<Verify> {
    let of = |value| with(vec![custom(value)]);
    let raw = |value: &[u8]| of(Node::raw(value));
    let mixed = Node::array(vec![Node::number(0), words("x"), Node::array(vec![]), Node::simple(22)]);
    vec![
        verify(21, "custom-unsigned", "2^64 - 1", of(Node::number(u64::MAX))),
        verify(21, "custom-negative", "-2^64", of(Node::negative(u64::MAX))),
        verify(21, "custom-bytes", "a byte string of any bytes", of(Node::bytes(b"\x00\xff"))),
        verify(21, "custom-text", "characters of one to four bytes", of(words("a\u{e9}\u{20ac}\u{10ffff}"))),
        verify(21, "custom-text-empty", "an empty text", of(words(""))),
        verify(21, "custom-false", "false", of(Node::simple(20))),
        verify(21, "custom-true", "true", of(Node::simple(21))),
        verify(21, "custom-null", "null", of(Node::simple(22))),
        verify(21, "custom-array", "an array of several kinds", of(mixed)),
        verify(4, "custom-float", "1.0", raw(b"\xf9\x3c\x00")),
        verify(4, "custom-tag", "a tag", raw(b"\xc1\x00")),
        verify(4, "custom-undefined", "undefined", raw(b"\xf7")),
        verify(4, "custom-map", "an empty map", raw(b"\xa0")),
        verify(4, "custom-surrogate", "a surrogate is no UTF-8", of(Node::text(b"\xed\xa0\x80"))),
        verify(4, "custom-overlong", "c0 80 is an overlong form", of(Node::text(b"\xc0\x80"))),
    ]
}

fn depths() -> Vec<Verify> {
    let of = |levels, inner| with(vec![custom(nested(levels, inner))]);
    let empty = || Node::array(vec![]);
    let most = Node::raw(b"\x9b\xff\xff\xff\xff\xff\xff\xff\xff\x00");
    let late = caveat_of("exp", Node::number(0));
    let first = Case { caveats: vec![late, custom(nested(4, empty()))], ..fresh() };
    vec![
        verify(21, "depth-4", "four arrays inside one another, the last one empty", of(3, empty())),
        verify(21, "depth-4-number", "a number inside four arrays", of(4, Node::number(0))),
        verify(5, "depth-5", "a fifth array", of(4, empty())),
        verify(5, "depth-5-most", "a fifth array of 2^64 - 1 elements", of(4, most.clone())),
        verify(4, "depth-5-long", "a fifth array: its bad head comes first", of(4, Node::raw(b"\x98\x00"))),
        verify(4, "depth-5-map", "a map inside four arrays", of(4, Node::raw(b"\xa0"))),
        verify(4, "array-most", "an array of 2^64 - 1 elements, which no token has", of(0, most)),
        verify(5, "depth-5-behind-exp", "reading ends before any caveat is held against the request", first.laid()),
    ]
}
