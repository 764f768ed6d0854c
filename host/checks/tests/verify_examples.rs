//! Document 01's examples about verify, document 02's of prefixes and paths, and the sample of document 004
//! by document 01's rules. The bytes are written out here, so that nothing that makes other tests' inputs has
//! a part in them.

use archive::verify;
use second::base64url;

const KEY: &[u8; 32] = b"whats the Elvish word for friend";
const SCOPE: &[u8] = b"\xa1\x67methods\x81\x63GET";

fn mac(parts: &[&[u8]]) -> [u8; 32] {
    *blake3::keyed_hash(KEY, &parts.concat()).as_bytes()
}

/// A token's text: for tenant-1 and kid-2025-10, with fewer than 24 caveats.
fn text(scope: &[u8], caveats: &[&[u8]]) -> Vec<u8> {
    let first = mac(&[b"ron-auth/v1\0init", b"tenant-1", b"kid-2025-10", scope]);
    let tag = caveats.iter().fold(first, |link, caveat| mac(&[b"ron-auth/v1\0caveat", &link, caveat]));
    let parts: [&[u8]; 9] = [
        b"\xa6\x61c",
        &[0x80 + caveats.len() as u8],
        &caveats.concat(),
        b"\x61r",
        scope,
        b"\x61s\x58\x20",
        &tag,
        b"\x61v\x01\x63kid\x6bkid-2025-10",
        b"\x63tid\x68tenant-1",
    ];
    base64url::encode(&parts.concat())
}

/// One row: a body of 53 bytes and kind 1.
fn table() -> Vec<u8> {
    [b"\x35\0\x01\0\x08tenant-1\x0bkid-2025-10", &KEY[..]].concat()
}

/// A request for GET by tenant-1 with a skew of 300, an empty body and perhaps a peer.
fn request(now: u64, path: &str, peer: Option<[u8; 4]>) -> Vec<u8> {
    let peer = peer.map(Vec::from);
    let flags = if peer.is_some() { 2 } else { 0 };
    let parts: [&[u8]; 9] = [
        &now.to_le_bytes(),
        &[0; 8],
        &[0x2c, 1, flags],
        &peer.unwrap_or_default(),
        b"\x03\0GET",
        &[path.len() as u8, 0],
        path.as_bytes(),
        b"\x08\0",
        b"tenant-1",
    ];
    parts.concat()
}

fn at(now: u64, caveat: &[u8]) -> u32 {
    verify(&table(), &request(now, "/", None), &text(SCOPE, &[caveat]))
}

#[test]
fn the_expiry_on_its_line() {
    let exp = b"\xa2\x61t\x63exp\x61v\x1a\x69\x55\xb9\x00";
    assert_eq!(at(1_767_225_900, exp), 0);
    assert_eq!(at(1_767_225_901, exp), 13);
}

#[test]
fn the_last_expiry_always_holds() {
    let exp = b"\xa2\x61t\x63exp\x61v\x1b\xff\xff\xff\xff\xff\xff\xff\xff";
    for now in [0, 1, 1_767_225_600, 1 << 63, u64::MAX - 301, u64::MAX - 1, u64::MAX] {
        assert_eq!(at(now, exp), 0, "{now}");
    }
}

#[test]
fn addresses() {
    let from = |peer, caveat: &[u8]| verify(&table(), &request(0, "/", peer), &text(SCOPE, &[caveat]));
    let eight = b"\xa2\x61t\x67ip_cidr\x61v\x6a10.0.0.0/8";
    assert_eq!(from(Some([10, 0, 0, 0]), eight), 0);
    assert_eq!(from(Some([10, 255, 255, 255]), eight), 0);
    assert_eq!(from(Some([11, 0, 0, 0]), eight), 16);
    assert_eq!(from(Some([9, 255, 255, 255]), eight), 16);
    assert_eq!(from(None, eight), 16);
    assert_eq!(from(None, b"\xa2\x61t\x67ip_cidr\x61v\x690.0.0.0/0"), 16);
    assert_eq!(from(Some([10, 0, 0, 1]), b"\xa2\x61t\x67ip_cidr\x61v\x6a10.0.0.1/8"), 4);
}

#[test]
fn texts_that_are_none() {
    let judged = |text: &[u8]| verify(&table(), &request(0, "/", None), text);
    assert_eq!(judged(b""), 4);
    assert_eq!(judged(b"_x"), 3);
    assert_eq!(judged(b"_w"), 4);
    assert_eq!(judged(&[b'='; 6000]), 5);
    let good = text(SCOPE, &[]);
    assert_eq!(judged(&good), 0);
    assert_eq!(judged(&[&good[..], b"\n"].concat()), 3);
    assert_eq!(judged(&[&good[..], b"="].concat()), 3);
}

#[test]
fn a_prefix_holds_for_what_lies_under_it() {
    let scope = b"\xa2\x66prefix\x6a/o/b3:abcd\x67methods\x81\x63GET";
    let caveat = b"\xa2\x61t\x6bpath_prefix\x61v\x6a/o/b3:abcd";
    for text in [text(scope, &[]), text(SCOPE, &[caveat]), text(scope, &[caveat])] {
        for (path, wanted) in [("/o/b3:abcd/some", 0), ("/o/b3:abcd", 0), ("/o/b3:abc", 11), ("/", 11)] {
            assert_eq!(verify(&table(), &request(0, path, None), &text), wanted, "{path}");
        }
    }
}

/// What a prefix of fewer than 24 bytes answers for a path, the same in the scope, in a caveat and in both.
fn fits(prefix: &str, path: &str) -> bool {
    let said = [&[0x60 + prefix.len() as u8], prefix.as_bytes()].concat();
    let scope = [b"\xa2\x66prefix", &said[..], b"\x67methods\x81\x63GET"].concat();
    let caveat = [b"\xa2\x61t\x6bpath_prefix\x61v", &said[..]].concat();
    let texts = [text(&scope, &[]), text(SCOPE, &[&caveat]), text(&scope, &[&caveat])];
    let [first, others @ ..] = texts.map(|text| verify(&table(), &request(0, path, None), &text));
    assert_eq!(others, [first; 2], "{prefix} {path}");
    assert!(first == 0 || first == 11, "{prefix} {path}: {first}");
    first == 0
}

#[test]
fn relay_1_is_not_relay_12() {
    assert!(fits("/relay/1", "/relay/1"));
    assert!(fits("/relay/1", "/relay/1/count"));
    assert!(fits("/relay/1", "/relay/1/"));
    for path in ["/relay/12", "/relay/12/", "/relay/12/count", "/relay/1?n=2", "/relay/1#n", "/relay/1.", "/relay/"] {
        assert!(!fits("/relay/1", path), "{path}");
    }
}

#[test]
fn a_prefix_that_ends_in_a_slash() {
    for path in ["/relay/1/", "/relay/1/count", "/relay/1/?", "/relay/1/.a"] {
        assert!(fits("/relay/1/", path), "{path}");
    }
    for path in ["/relay/1", "/relay/12", "/relay/12/", "/relay/"] {
        assert!(!fits("/relay/1/", path), "{path}");
    }
    for path in ["/", "/...", "/relay", "/relay/12", "/?", "/#"] {
        assert!(fits("/", path), "{path}");
    }
}

/// Document 02, M-106: one of each kind that proxies rewrite. A request for it is bad, and a token with it, which
/// was readable before, is no longer.
#[test]
fn what_proxies_rewrite_is_refused() {
    for path in ["/relay//1", "/relay/1//", "//", "/relay/./1", "/relay/1/.", "/relay/../1", "/relay/1/..", "/%31", "/.", "/.."] {
        assert_eq!(verify(&table(), &request(0, path, None), &text(SCOPE, &[])), 2, "{path}");
        let said = [&[0x60 + path.len() as u8], path.as_bytes()].concat();
        let scope = [b"\xa2\x66prefix", &said[..], b"\x67methods\x81\x63GET"].concat();
        let caveat = [b"\xa2\x61t\x6bpath_prefix\x61v", &said[..]].concat();
        for text in [text(&scope, &[]), text(SCOPE, &[&caveat])] {
            assert_eq!(verify(&table(), &request(0, "/relay/1", None), &text), 4, "{path}");
        }
    }
    for path in ["/relay/.1", "/relay/1.", "/relay/...", "/..a/1", "/relay/1/", "/", "/.?x"] {
        assert!(fits("/", path) && fits(path, path), "{path}");
    }
}

#[test]
fn no_methods_are_not_any() {
    let asked = request(0, "/", None);
    assert_eq!(verify(&table(), &asked, &text(b"\xa1\x67methods\x80", &[])), 10);
    assert_eq!(verify(&table(), &asked, &text(SCOPE, &[b"\xa2\x61t\x66method\x61v\x80"])), 10);
}

#[test]
fn the_sample_of_document_004() {
    let scope = b"\xa3\x66prefix\x6a/o/b3:abcd\x67methods\x81\x63GET\x69max_bytes\x1a\x00\x10\x00\x00";
    let caveats: [&[u8]; 3] = [
        b"\xa2\x61t\x63exp\x61v\x1a\x69\x55\xb9\x00",
        b"\xa2\x61t\x66method\x61v\x81\x63GET",
        b"\xa2\x61t\x6bpath_prefix\x61v\x6a/o/b3:abcd",
    ];
    let text = text(scope, &caveats);
    let asked = request(1_767_225_599, "/o/b3:abcd/some", None);
    assert_eq!(verify(&table(), &asked, &text), 0);
    assert_eq!(second::verify(&table(), &asked, &text), 0);
    assert_eq!(verify(b"", &asked, &text), 7);
    assert_eq!(verify(&table(), b"", &text), 2);
    assert_eq!(verify(b"\0", b"", &text), 1);
}
