//! Keys, tags, tenants, scopes and caveats: what holds when, on either side of each edge.

use second::chain;

use super::parts::{
    asked, asked_with, fresh, idle, methods, one, row, rows, scope_of, scoped, verify, with, words, Verify, DIGEST,
    KEY, NEW_YEAR,
};
use crate::cases::{Case, Triple};
use crate::requests::Request;
use crate::tables::Row;
use crate::tree::Node;
use crate::trees::{caveat_of, rate};

pub fn cases() -> Vec<Verify> {
    let scopes = [scope_methods(), scope_paths(), scope_sizes()].concat();
    let numbers = [exp(), nbf(), sizes_and_rates()].concat();
    let texts = [audiences(), lists(), prefixes(), peers(), tenants_and_digests(), amnesia()].concat();
    [keys(), tags(), joined_ids(), tenants(), scopes, numbers, texts].concat()
}

fn keys() -> Vec<Verify> {
    let under = |tid: &str, kid: &str| Case { row: row(tid, kid), ..fresh() }.laid();
    vec![
        verify(7, "kid-gone", "the table has no such kid", under("workshop", "kid-2024-10")),
        verify(7, "kid-of-other-tenant", "the contractor's kid under the workshop", under("workshop", "kid-2025-11")),
        verify(7, "kid-shorter", "the table's kid begins with this one", under("workshop", "kid-2025-1")),
        verify(7, "ids-exchanged", "the kid as tid and the tid as kid", under("kid-2025-10", "workshop")),
    ]
}

/// Tokens whose tag is another one than the chain's.
fn tags() -> Vec<Verify> {
    let get = caveat_of("method", methods(&["GET"]));
    let case = Case { caveats: vec![get.clone(), idle()], ..fresh() };
    let tagged = |tag: &[u8]| case.with_token(&case.tree(tag).laid());
    let flipped = |at: usize, bit: u8| {
        let mut tag = case.tag();
        tag[at] ^= bit;
        tagged(&tag)
    };
    let alone = [b"ron-auth/v1\0caveat", &idle().laid()[..]].concat();
    let other_key = Case { row: rows()[1].clone(), ..case.clone() }.tag();
    vec![
        verify(0, "tag-right", "two caveats, and their tag", case.laid()),
        verify(8, "tag-first-bit", "the first bit of the tag changed", flipped(0, 0x80)),
        verify(8, "tag-last-bit", "the last bit of the tag changed", flipped(31, 1)),
        verify(8, "tag-zero", "32 zero bytes", tagged(&[0; 32])),
        verify(8, "tag-passed-on", "the parent's tag on its child", tagged(&case.tag_over(&[get.clone()]))),
        verify(8, "tag-of-child", "the tag of a token with one caveat more", {
            tagged(&case.tag_over(&[get.clone(), idle(), idle()]))
        }),
        verify(8, "tag-of-other-order", "the tag of the same caveats exchanged", {
            tagged(&case.tag_over(&[idle(), get]))
        }),
        verify(8, "tag-over-caveat-alone", "a link over the last caveat without the link before it", {
            tagged(&chain::official(KEY, &alone))
        }),
        verify(8, "tag-under-other-key", "the tag under last month's key", tagged(&other_key)),
    ]
}

/// Both ids enter the first link bare, so that ids of the same joined text share links under one key.
fn joined_ids() -> Vec<Verify> {
    let of = |other: Row| {
        let rows = [vec![row("a", "bc"), other.clone()], rows()].concat();
        let mut case = Case { row: row("a", "bc"), rows, ..fresh() };
        let tag = case.tag();
        case.row = other;
        case.request.tenant = b"ab".to_vec();
        case.with_token(&case.tree(&tag).laid())
    };
    let other_key = Row { key: vec![9; 32], ..row("ab", "c") };
    vec![
        verify(0, "ids-joined", "the tag of a, bc in the token of ab, c: one key, one link", of(row("ab", "c"))),
        verify(8, "ids-joined-other-key", "the same, and ab, c has a key of its own", of(other_key)),
    ]
}

fn tenants() -> Vec<Verify> {
    let tenant = |tenant: &str| asked(|request| request.tenant = tenant.into()).laid();
    vec![
        verify(9, "tenant-other", "the workshop's token in the contractor's request", tenant("contractor")),
        verify(9, "tenant-longer", "a tenant that begins with the tid", tenant("workshop-2")),
        verify(9, "tenant-case", "a tenant in other letters", tenant("Workshop")),
    ]
}

fn scope_methods() -> Vec<Verify> {
    let method = |method: &str| asked(|request| request.method = method.into()).laid();
    vec![
        verify(0, "fresh", "a token without caveats, and all of its scope holds", fresh().laid()),
        verify(0, "scope-method-second", "the second method of the list", method("PUT")),
        verify(10, "scope-method-other", "a method that is not in the list", method("DELETE")),
        verify(10, "scope-method-front", "GE is not GET", method("GE")),
        verify(10, "scope-methods-none", "an empty list holds for nothing", scoped(scope_of(None, &[], None))),
    ]
}

/// The rule of document 02's M-100, for the scope's prefix.
fn scope_paths() -> Vec<Verify> {
    let of = |prefix: &str, path: &str| {
        let scope = scope_of(Some(prefix), &["GET"], None);
        Case { scope, ..asked(|request| request.path = path.into()) }.laid()
    };
    let path = |path| of("/relay/1", path);
    vec![
        verify(0, "scope-path-equal", "the path is the prefix", path("/relay/1")),
        verify(0, "scope-path-count", "/relay/1 fits /relay/1/count", path("/relay/1/count")),
        verify(11, "scope-path-12", "/relay/1 does not fit /relay/12", path("/relay/12")),
        verify(11, "scope-path-12-count", "nor /relay/12/count", path("/relay/12/count")),
        verify(11, "scope-path-question", "the next byte is ?", path("/relay/1?n=2")),
        verify(11, "scope-path-hash", "the next byte is #", path("/relay/1#n")),
        verify(0, "scope-path-slash", "/relay/1/ fits /relay/1/count", of("/relay/1/", "/relay/1/count")),
        verify(11, "scope-path-slash-shorter", "/relay/1/ does not fit /relay/1", of("/relay/1/", "/relay/1")),
        verify(0, "scope-path-root", "/ fits every path", of("/", "/relay/12")),
        verify(0, "scope-path-under", "/o/b3:abcd fits /o/b3:abcd/some", of("/o/b3:abcd", "/o/b3:abcd/some")),
        verify(11, "scope-path-other", "another relay", path("/relay/2/count")),
        verify(11, "scope-path-shorter", "the path ends before the prefix does", path("/relay/")),
    ]
}

fn scope_sizes() -> Vec<Verify> {
    let sized = |body_size, max_bytes| {
        let scope = scope_of(Some("/relay/1"), &["GET"], max_bytes);
        Case { scope, ..asked(|request| request.body_size = body_size) }.laid()
    };
    vec![
        verify(0, "scope-bytes-equal", "512 bytes of 512", sized(512, Some(512))),
        verify(12, "scope-bytes-over", "513 bytes of 512", sized(513, Some(512))),
        verify(12, "scope-bytes-2-16", "65,536 bytes of 0: a limit has more than 16 bits", sized(65_536, Some(0))),
        verify(0, "scope-bytes-most", "2^64 - 1 bytes of as many", sized(u64::MAX, Some(u64::MAX))),
        verify(0, "scope-bytes-absent", "2^64 - 1 bytes, and no limit", sized(u64::MAX, None)),
    ]
}

/// The fresh token with one number as caveat, at some time and with some skew.
fn timed(t: &str, v: u64, now: u64, skew: u16) -> Triple {
    asked_with(t, Node::number(v), |request| (request.now, request.skew) = (now, skew))
}

fn exp() -> Vec<Verify> {
    let exp = |exp, now, skew| timed("exp", exp, now, skew);
    let most = u64::MAX;
    vec![
        verify(0, "exp-and-skew", "300 seconds past, and a skew of 300", exp(NEW_YEAR, NEW_YEAR + 300, 300)),
        verify(13, "exp-past-skew", "301 seconds past, and a skew of 300", exp(NEW_YEAR, NEW_YEAR + 301, 300)),
        verify(0, "exp-now", "the second of the expiry, without skew", exp(NEW_YEAR, NEW_YEAR, 0)),
        verify(13, "exp-passed", "the next second, without skew", exp(NEW_YEAR, NEW_YEAR + 1, 0)),
        verify(0, "exp-most", "2^64 - 1 at 2^64 - 1", exp(most, most, 300)),
        verify(0, "exp-sum-past-2-64", "exp and skew are 2^64 together, at 2^64 - 1", exp(most - 299, most, 300)),
        verify(13, "exp-most-passed", "2^64 - 302 and a skew of 300, at 2^64 - 1", exp(most - 301, most, 300)),
    ]
}

fn nbf() -> Vec<Verify> {
    let most = u64::MAX;
    vec![
        verify(0, "nbf-and-skew", "in 300 seconds, and a skew of 300", timed("nbf", NEW_YEAR + 300, NEW_YEAR, 300)),
        verify(14, "nbf-past-skew", "in 301 seconds, and a skew of 300", timed("nbf", NEW_YEAR + 301, NEW_YEAR, 300)),
        verify(14, "nbf-next-second", "in a second, without skew", timed("nbf", NEW_YEAR + 1, NEW_YEAR, 0)),
        verify(0, "nbf-sum-past-2-64", "now and skew are 2^64 together", timed("nbf", most, most - 299, 300)),
    ]
}

fn sizes_and_rates() -> Vec<Verify> {
    let stated = |burst, per_s| one("rate", rate(burst, per_s));
    vec![
        verify(0, "bytes_le-equal", "16 bytes of 16", one("bytes_le", Node::number(16))),
        verify(12, "bytes_le-over", "16 bytes of 15", one("bytes_le", Node::number(15))),
        verify(0, "rate-equal", "a host of 5 a second and a burst of 10", stated(10, 5)),
        verify(17, "rate-burst-over", "the host's burst is more", stated(9, 5)),
        verify(17, "rate-per_s-over", "the host's per_s is more", stated(10, 4)),
        verify(17, "rate-exchanged", "burst 5 and per_s 10", stated(5, 10)),
        verify(17, "rate-absent", "the host states no rate", asked_with("rate", rate(10, 5), |r| r.rate = None)),
    ]
}

fn audiences() -> Vec<Verify> {
    let aud = |aud: &str| one("aud", words(aud));
    vec![
        verify(0, "aud-equal", "the audience that asks", aud("relay-1")),
        verify(15, "aud-other", "another audience", aud("relay-2")),
        verify(15, "aud-front", "the front of the audience", aud("relay-")),
        verify(15, "aud-absent", "the request has none", asked_with("aud", words("relay-1"), |r| r.audience = None)),
    ]
}

fn lists() -> Vec<Verify> {
    vec![
        verify(0, "method-in-list", "GET is in the caveat's list", one("method", methods(&["PUT", "GET"]))),
        verify(10, "method-not-in-list", "PUT alone", one("method", methods(&["PUT"]))),
        verify(10, "method-none", "an empty list holds for nothing", one("method", methods(&[]))),
    ]
}

/// The same rule for path_prefix, on the path /relay/1/count.
fn prefixes() -> Vec<Verify> {
    let of = |prefix: &str| one("path_prefix", words(prefix));
    vec![
        verify(0, "path_prefix-equal", "the path", of("/relay/1/count")),
        verify(0, "path_prefix-under", "the next byte is /", of("/relay/1")),
        verify(0, "path_prefix-slash", "its last byte is /", of("/relay/1/")),
        verify(0, "path_prefix-root", "/ fits every path", of("/")),
        verify(11, "path_prefix-within", "/relay/1/c ends within a segment", of("/relay/1/c")),
        verify(11, "path_prefix-slash-longer", "/relay/1/count/ is longer than the path", of("/relay/1/count/")),
        verify(11, "path_prefix-other", "another path", of("/relay/1/name")),
    ]
}

fn peers() -> Vec<Verify> {
    let from = |peer| asked_with("ip_cidr", words("10.0.0.0/8"), |request| request.peer = peer);
    let any = asked_with("ip_cidr", words("0.0.0.0/0"), |request| request.peer = None);
    vec![
        verify(0, "ip-last", "10.255.255.255 is in 10.0.0.0/8", from(Some([10, 255, 255, 255]))),
        verify(16, "ip-next", "11.0.0.0 is not", from(Some([11, 0, 0, 0]))),
        verify(16, "ip-other-order", "3.2.1.10 is not: addresses stand as written", from(Some([3, 2, 1, 10]))),
        verify(16, "ip-absent", "without a peer no address holds, 0.0.0.0/0 neither", any),
    ]
}

fn tenants_and_digests() -> Vec<Verify> {
    let digest = || Node::text(DIGEST);
    vec![
        verify(0, "tenant-caveat", "the tid", one("tenant", words("workshop"))),
        verify(18, "tenant-caveat-other", "another tenant", one("tenant", words("contractor"))),
        verify(18, "tenant-caveat-front", "the front of the tid", one("tenant", words("work"))),
        verify(0, "digest-equal", "the host's policy digest", one("gov_policy_digest", digest())),
        verify(20, "digest-other", "another digest", one("gov_policy_digest", words(&"0".repeat(64)))),
        verify(20, "digest-absent", "the request has none", {
            asked_with("gov_policy_digest", digest(), |request| request.digest = None)
        }),
    ]
}

fn amnesia() -> Vec<Verify> {
    let of = |truth, flag| asked_with("amnesia", Node::simple(truth), |request: &mut Request| request.amnesia = flag);
    let all = [
        ("exp", Node::number(NEW_YEAR)),
        ("nbf", Node::number(NEW_YEAR)),
        ("aud", words("relay-1")),
        ("method", methods(&["GET"])),
        ("path_prefix", words("/relay/1")),
        ("ip_cidr", words("10.0.0.0/8")),
        ("bytes_le", Node::number(16)),
        ("rate", rate(10, 5)),
        ("tenant", words("workshop")),
        ("amnesia", Node::simple(20)),
        ("gov_policy_digest", Node::text(DIGEST)),
    ];
    vec![
        verify(0, "amnesia-false", "false always holds", of(20, false)),
        verify(0, "amnesia-true", "true, and the host has the flag", of(21, true)),
        verify(19, "amnesia-true-unflagged", "true, and the host has no such flag", of(21, false)),
        verify(19, "amnesia-true-behind-false", "the second of two", {
            with(vec![idle(), caveat_of("amnesia", Node::simple(21))])
        }),
        verify(0, "every-kind", "each kind that can hold", with(all.map(|(t, v)| caveat_of(t, v)).to_vec())),
    ]
}
