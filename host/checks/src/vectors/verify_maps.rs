//! Maps, keys, heads and the edition: what document 01's reading order says of a token's structure.

use super::parts::{bytes, field, fresh, methods, one, scope_of, scoped, tree, verify, with, words, Verify, TOKEN_KEYS};
use crate::cases::Triple;
use crate::tree::Node;
use crate::trees::caveat_of;

pub fn cases() -> Vec<Verify> {
    [token_counts(), token_keys(), strange_keys(), scopes(), caveats(), inner_maps(), editions(), heads()].concat()
}

/// The fresh token with its map laid anew.
fn changed(change: impl FnOnce(Node) -> Node) -> Triple {
    bytes(&change(tree()).laid())
}

/// The fresh token's entries under these keys, in this order.
fn ordered(keys: &[&str]) -> Triple {
    changed(|tree| {
        let at = |key: &&str| TOKEN_KEYS.iter().position(|known| known == key).expect("a key of a token");
        let entry = |key| tree.items[2 * at(key)..2 * at(key) + 2].to_vec();
        tree.holding(keys.iter().flat_map(entry).collect())
    })
}

fn token_counts() -> Vec<Verify> {
    let more = |tree: Node| {
        let items = [tree.items.clone(), vec![words("zone"), Node::number(1)]].concat();
        tree.holding(items)
    };
    let under = |head: &[u8]| changed(|tree| tree.under(head.to_vec()));
    vec![
        verify(6, "token-seven-entries", "an entry behind the six", changed(more)),
        verify(6, "token-seven-broken", "a map of seven, and nothing good in it", bytes(b"\xa7\xff")),
        verify(6, "token-most-entries", "a map of 2^64 - 1 entries", under(b"\xbb\xff\xff\xff\xff\xff\xff\xff\xff")),
        verify(4, "token-five-entries", "no tid", ordered(&TOKEN_KEYS[..5])),
        verify(4, "token-count-long", "six entries in a head of two bytes", under(b"\xb8\x06")),
        verify(4, "token-count-long-seven", "seven in a head of two bytes: the head comes first", under(b"\xb8\x07")),
        verify(4, "token-indefinite", "a map of indefinite length", under(b"\xbf")),
        verify(4, "token-array", "an array of six in the map's place", under(b"\x86")),
    ]
}

fn token_keys() -> Vec<Verify> {
    let alphabet = ["c", "kid", "r", "s", "tid", "v"];
    let laid = fresh().token();
    vec![
        verify(4, "token-keys-by-alphabet", "r passed over at kid: keys stand by encoding", ordered(&alphabet)),
        verify(4, "token-key-repeated", "r twice and no s", ordered(&["c", "r", "r", "v", "kid", "tid"])),
        verify(4, "token-tid-before-kid", "the last two exchanged", ordered(&["c", "r", "s", "v", "tid", "kid"])),
        verify(4, "token-left-over", "a byte behind the token", bytes(&[&laid[..], b"\0"].concat())),
        verify(4, "token-cut", "the last byte is missing", bytes(&laid[..laid.len() - 1])),
    ]
}

/// Something else where the key kid should stand.
fn strange_keys() -> Vec<Verify> {
    let key = |node: Node| {
        changed(|mut tree| {
            tree.items[8] = node;
            tree
        })
    };
    let longest = Node::text(b"").saying(u64::MAX);
    let long_head = words("kid").under(b"\x78\x03".to_vec());
    vec![
        verify(6, "key-unknown", "kin, where kid should stand", key(words("kin"))),
        verify(6, "key-300", "a key of 300 bytes", key(words(&"k".repeat(300)))),
        verify(6, "key-no-utf8", "a key that is no UTF-8", key(Node::text(b"\xff"))),
        verify(4, "key-byte-string", "the byte string kid", key(Node::bytes(b"kid"))),
        verify(4, "key-long-head", "kid under a head of two bytes", key(long_head)),
        verify(4, "key-longer-than-rest", "a key of 2^64 - 1 bytes", key(longest)),
    ]
}

fn scopes() -> Vec<Verify> {
    let prefix = |length: usize| ("prefix", words(&format!("/{}", "p".repeat(length - 1))));
    let list = || ("methods", methods(&["GET"]));
    let most = || ("max_bytes", Node::number(512));
    let four = vec![prefix(1), list(), most(), ("zone", Node::number(1))];
    vec![
        verify(6, "scope-four-entries", "an entry behind the three", scoped(Node::map(four))),
        verify(4, "scope-no-entries", "fewer than it requires", scoped(Node::map(vec![]))),
        verify(4, "scope-prefix-alone", "methods absent at the end", scoped(Node::map(vec![prefix(1)]))),
        verify(
            5,
            "scope-prefix-alone-257",
            "the prefix is too long, which is met before methods is missed",
            scoped(Node::map(vec![prefix(257)])),
        ),
        verify(4, "scope-prefix-slashes", "// in the prefix", scoped(scope_of(Some("/relay//1"), &["GET"], None))),
        verify(4, "scope-prefix-dot", "a segment .", scoped(scope_of(Some("/relay/./1"), &["GET"], None))),
        verify(4, "scope-prefix-dots", "the last is ..", scoped(scope_of(Some("/relay/.."), &["GET"], None))),
        verify(4, "scope-prefix-percent", "%", scoped(scope_of(Some("/relay/%31"), &["GET"], None))),
        verify(4, "scope-methods-passed-over", "prefix, max_bytes", scoped(Node::map(vec![prefix(1), most()]))),
        verify(4, "scope-methods-last", "max_bytes before methods", scoped(Node::map(vec![most(), list()]))),
        verify(6, "scope-key-of-token", "kid is known to the token's map alone", {
            scoped(Node::map(vec![list(), ("kid", words("k"))]))
        }),
    ]
}

fn caveats() -> Vec<Verify> {
    let exp = || ("t", words("exp"));
    let v = || ("v", Node::number(u64::MAX));
    let of = |entries| with(vec![Node::map(entries)]);
    vec![
        verify(6, "caveat-three-entries", "an entry behind the two", of(vec![exp(), v(), ("w", Node::number(0))])),
        verify(4, "caveat-one-entry", "t alone", of(vec![exp()])),
        verify(4, "caveat-v-first", "v before t", of(vec![v(), exp()])),
        verify(6, "caveat-t-unknown", "a kind that is none of the twelve", one("until", Node::number(0))),
        verify(
            6,
            "caveat-t-unknown-broken",
            "an unknown kind, and behind it no item: t is judged when it is read",
            with(vec![Node::raw(b"\xa2\x61t\x65until\xff")]),
        ),
        verify(4, "caveat-t-byte-string", "the byte string exp", of(vec![("t", Node::bytes(b"exp")), v()])),
        verify(4, "caveat-no-map", "an array of two", with(vec![Node::array(vec![words("exp"), Node::number(0)])])),
    ]
}

/// The maps inside rate and custom.
fn inner_maps() -> Vec<Verify> {
    let number = |key| (key, Node::number(10));
    let rate = |entries| one("rate", Node::map(entries));
    let unordered = vec![("ns", words("n")), ("name", words("n")), ("cbor", Node::number(0))];
    vec![
        verify(4, "rate-per_s-first", "per_s before burst", rate(vec![number("per_s"), number("burst")])),
        verify(6, "rate-three-entries", "an entry behind the two", {
            rate(vec![number("burst"), number("per_s"), number("unit")])
        }),
        verify(4, "custom-name-before-cbor", "name before cbor", one("custom", Node::map(unordered))),
    ]
}

fn editions() -> Vec<Verify> {
    let v = |value| field("v", value);
    let mut hidden = tree();
    hidden.items[7] = Node::number(2);
    hidden.items[9] = words("");
    vec![
        verify(6, "v-0", "an edition that is not known", v(Node::number(0))),
        verify(6, "v-2", "an edition that is not known", v(Node::number(2))),
        verify(6, "v-most", "edition 2^64 - 1", v(Node::number(u64::MAX))),
        verify(6, "v-2-hides-kid", "edition 2, and behind it an empty kid", bytes(&hidden.laid())),
        verify(4, "v-negative", "-2 is of another type", v(Node::negative(1))),
        verify(4, "v-text", "the text 1", v(words("1"))),
        verify(4, "v-float", "1.0", v(Node::raw(b"\xf9\x3c\x00"))),
        verify(4, "v-long", "1 in a head of two bytes", v(Node::raw(b"\x18\x01"))),
    ]
}

/// Heads of the number in an exp, and of the list of caveats. The tag is right for the bytes as they lie, so
/// a reader that takes a long form allows the token.
fn heads() -> Vec<Verify> {
    let exp = |head: &[u8]| one("exp", Node::raw(head));
    let late = caveat_of("exp", Node::number(u64::MAX));
    let counted = |head: &[u8]| field("c", Node::array(vec![late.clone()]).under(head.to_vec()));
    vec![
        verify(4, "exp-23-long", "18 17 is 23, which needs no byte behind its head", exp(b"\x18\x17")),
        verify(4, "exp-65535-long", "1a 00 00 ff ff is 65535, which needs two bytes", exp(b"\x1a\0\0\xff\xff")),
        verify(4, "exp-2-32-long", "1b and 2^32 - 1, which needs four bytes", exp(b"\x1b\0\0\0\0\xff\xff\xff\xff")),
        verify(4, "exp-low-bits-28", "1c has no meaning", exp(b"\x1c")),
        verify(4, "exp-negative", "-1", exp(b"\x20")),
        verify(4, "exp-tagged", "c1 00: a tag", exp(b"\xc1\x00")),
        verify(4, "caveats-count-long", "one caveat in a head of two bytes", counted(b"\x98\x01")),
        verify(4, "caveats-count-long-65", "65 in three bytes: the head comes first", counted(b"\x99\0\x41")),
    ]
}
