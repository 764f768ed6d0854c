//! Key tables, requests and texts, good at their limits and bad just past them.

use second::records;

use super::parts::{asked, fresh, row, rows, scope_of, text, verify, Verify};
use crate::cases::{Case, Triple};
use crate::tables::{self, Row};

pub fn cases() -> Vec<Verify> {
    let requests = [requests(), requests_rewritten(), requests_at_limits()].concat();
    [tables_by_rows(), tables_by_bytes(), requests, texts(), texts_by_length()].concat()
}

/// The table's rows and some before or behind them; no id here comes behind "contractor" but those of the
/// table itself.
fn tables_by_rows() -> Vec<Verify> {
    let of = |rows: Vec<Row>| Triple { table: tables::laid(&rows), ..fresh().laid() };
    let behind = |first: Vec<Row>| of([first, rows()].concat());
    let many = |count: usize| (0..count).map(|n| row(&format!("a{n:02}"), "kid")).collect();
    let reversed = rows().into_iter().rev().collect();
    let twice = [rows(), rows()[2..].to_vec()].concat();
    let long = "a".repeat(65);
    vec![
        verify(7, "table-empty", "a table without rows is good and has no key", of(vec![])),
        verify(0, "table-64-rows", "as many rows as a table may have", behind(many(61))),
        verify(1, "table-65-rows", "one row more than a table may have", behind(many(62))),
        verify(1, "table-reversed", "rows in descending order", of(reversed)),
        verify(1, "table-row-twice", "the same row twice: strictly ascending", of(twice)),
        verify(1, "table-longer-first", "tid ab before tid a", behind(vec![row("ab", "k"), row("a", "k")])),
        verify(
            0,
            "table-order-by-tid-first",
            "a, c before ab, b: by tid and then by kid, not by both joined",
            behind(vec![row("a", "c"), row("ab", "b")]),
        ),
        verify(1, "table-tid-empty", "a row with an empty tid", behind(vec![row("", "kid")])),
        verify(1, "table-tid-65", "a row with a tid of 65 characters", behind(vec![row(&long, "kid")])),
        verify(1, "table-kid-blank", "a row whose kid has a blank", behind(vec![row("a", "kid 1")])),
    ]
}

fn tables_by_bytes() -> Vec<Verify> {
    let good = fresh().laid().table;
    let of = |table: Vec<u8>| Triple { table, ..fresh().laid() };
    let mut kind = good.clone();
    kind[3] = 1;
    let long_key = Row { key: vec![3; 33], ..row("a", "kid") };
    vec![
        verify(1, "table-cut", "the last byte is missing", of(good[..good.len() - 1].to_vec())),
        verify(1, "table-kind-257", "a row of kind 257: a kind has two bytes", of(kind)),
        verify(1, "table-key-33", "a row with a byte more", of([long_key.record(), good.clone()].concat())),
        verify(
            1,
            "table-bad-behind",
            "a record of kind 2 behind the row that is wanted: the whole table is judged",
            of([good, records::write(2, b"")].concat()),
        ),
    ]
}

fn requests() -> Vec<Verify> {
    let of = |request: Vec<u8>| Triple { request, ..fresh().laid() };
    let good = fresh().request.laid();
    let mut flag = good.clone();
    flag[18] |= 0x20;
    let digest = asked(|request| request.digest = Some(vec![b'A'; 64])).laid();
    vec![
        verify(2, "request-empty", "no bytes at all", of(vec![])),
        verify(2, "request-cut", "the last byte is missing", of(good[..good.len() - 1].to_vec())),
        verify(2, "request-left-over", "a byte behind the request", of([&good[..], b"\0"].concat())),
        verify(2, "request-flag-bit-5", "a flag that has no meaning", of(flag)),
        verify(2, "request-digest-upper", "a digest in upper case", digest),
        verify(2, "request-method-lower", "a method in lower case", asked(|r| r.method = b"get".to_vec()).laid()),
        verify(2, "request-path-relative", "no slash in front", asked(|r| r.path = b"relay/1".to_vec()).laid()),
        verify(2, "request-tenant-empty", "an empty tenant", asked(|r| r.tenant = vec![]).laid()),
    ]
}

/// Paths that proxies rewrite (document 02, M-106), and some that they leave.
fn requests_rewritten() -> Vec<Verify> {
    let of = |path: &str| {
        let scope = scope_of(None, &["GET"], None);
        Case { scope, ..asked(|request| request.path = path.into()) }.laid()
    };
    vec![
        verify(2, "request-path-percent", "% anywhere", of("/relay/%31")),
        verify(2, "request-path-slashes", "// within", of("/relay//1")),
        verify(2, "request-path-slashes-alone", "// alone", of("//")),
        verify(2, "request-path-slashes-last", "// at the end", of("/relay/1//")),
        verify(2, "request-path-slashes-query", "// behind ?, since there is no query", of("/relay?x=//")),
        verify(2, "request-path-dot", "a segment .", of("/relay/./1")),
        verify(2, "request-path-dot-last", "the last segment is .", of("/relay/.")),
        verify(2, "request-path-dots", "a segment ..", of("/relay/../1")),
        verify(2, "request-path-dots-last", "the last segment is ..", of("/relay/..")),
        verify(0, "request-path-hidden", "a segment .1 is neither . nor ..", of("/relay/.1")),
        verify(0, "request-path-three-dots", "nor is ...", of("/relay/.../1")),
        verify(0, "request-path-dot-query", "nor is .?x", of("/.?x")),
        verify(0, "request-path-slash-last", "one / at the end", of("/relay/1/")),
    ]
}

fn requests_at_limits() -> Vec<Verify> {
    let path = |length| {
        let mut path = b"/relay/1/".to_vec();
        path.resize(length, b'x');
        asked(|request| request.path = path).laid()
    };
    let method = |length: usize| {
        let name = "M".repeat(length);
        let case = asked(|request| request.method = name.clone().into());
        Case { scope: scope_of(None, &[&"M".repeat(16)], None), ..case }.laid()
    };
    vec![
        verify(2, "request-skew-301", "a skew of more than 300", asked(|request| request.skew = 301).laid()),
        verify(0, "request-path-1024", "the longest path", path(1024)),
        verify(2, "request-path-1025", "a path that is too long", path(1025)),
        verify(0, "request-method-16", "the longest method", method(16)),
        verify(2, "request-method-17", "a method that is too long", method(17)),
    ]
}

fn texts() -> Vec<Verify> {
    let good = fresh().laid().text;
    let before = |front: &str| text([front.as_bytes(), &good].concat());
    let behind = |rest: &str| text([&good, rest.as_bytes()].concat());
    // Of the last of 4k + 2 characters two bits count, and B differs from A in the lowest of the other four.
    assert_eq!((good.len() % 4, good.last()), (2, Some(&b'A')), "the character that is changed here");
    let odd = text([&good[..good.len() - 1], b"B"].concat());
    vec![
        verify(4, "text-empty", "no text decodes to no bytes, and the map is missing", text("")),
        verify(4, "text-byte-ff", "_w is the byte ff, which is no map", text("_w")),
        verify(3, "text-unused-bits", "_x has unused low bits that are not zero", text("_x")),
        verify(3, "text-unused-bits-of-token", "a good token but for an unused bit of its last character", odd),
        verify(3, "text-padded", "a good token with padding behind it", behind("=")),
        verify(3, "text-newline", "a good token with a newline behind it", behind("\n")),
        verify(3, "text-blank", "a good token with a blank before it", before(" ")),
        verify(3, "text-plus", "a character of the other Base64 alphabet", text("+w")),
        verify(3, "text-not-ascii", "a character past 7f", text("\u{e9}\u{e9}")),
    ]
}

fn texts_by_length() -> Vec<Verify> {
    vec![
        verify(3, "text-1", "one character holds no whole byte", text("A")),
        verify(3, "text-4k-plus-1", "5,461 characters: no number of bytes has so many", text("A".repeat(5461))),
        verify(4, "text-5462", "as long as a text may be, and its first byte is no map", text("A".repeat(5462))),
        verify(3, "text-5462-bad", "as long as a text may be, of bad characters", text("=".repeat(5462))),
        verify(5, "text-5463", "too long, of good characters", text("A".repeat(5463))),
        verify(5, "text-5463-bad", "too long, of bad characters: the length comes first", text("=".repeat(5463))),
    ]
}
