//! What the vectors are made from: one table, one request and one token of two tenants, which fit each other,
//! and the ways in which a case differs from them. Tags are right for the bytes as they lie, good or not, so
//! that a reader that lets a defect pass does not end at the tag.

use crate::cases::{Case, Triple};
use crate::requests::Request;
pub use crate::sample_bundle::{read_count as request, DIGEST, NEW_YEAR};
use crate::tables::Row;
use crate::tree::Node;
use crate::trees::caveat_of;

/// The key of the published BLAKE3 vectors.
pub const KEY: &[u8; 32] = b"whats the Elvish word for friend";

pub const TOKEN_KEYS: [&str; 6] = ["c", "r", "s", "v", "kid", "tid"];

/// A call of verify, and the answer that it must get.
#[derive(Clone)]
pub struct Verify {
    pub answer: u32,
    pub name: &'static str,
    pub comment: &'static str,
    pub lent: Triple,
}

pub fn verify(answer: u32, name: &'static str, comment: &'static str, lent: Triple) -> Verify {
    Verify { answer, name, comment, lent }
}

pub fn row(tid: &str, kid: &str) -> Row {
    Row { tid: tid.into(), kid: kid.into(), key: KEY.to_vec() }
}

pub fn rows() -> Vec<Row> {
    let contractor = Row { key: vec![3; 32], ..row("contractor", "kid-2025-11") };
    let last_month = Row { key: vec![2; 32], ..row("workshop", "kid-2025-09") };
    vec![contractor, last_month, row("workshop", "kid-2025-10")]
}

/// GET and PUT under /relay/1 with bodies of up to 512 bytes.
pub fn scope() -> Node {
    scope_of(Some("/relay/1"), &["GET", "PUT"], Some(512))
}

pub fn scope_of(prefix: Option<&str>, list: &[&str], max_bytes: Option<u64>) -> Node {
    let mut entries: Vec<(&str, Node)> = prefix.map(|prefix| ("prefix", words(prefix))).into_iter().collect();
    entries.push(("methods", methods(list)));
    entries.extend(max_bytes.map(|most| ("max_bytes", Node::number(most))));
    Node::map(entries)
}

/// The workshop's token without caveats, which allows the request.
pub fn fresh() -> Case {
    let rows = rows();
    Case { row: rows[2].clone(), rows, request: request(), scope: scope(), caveats: vec![] }
}

pub fn words(text: &str) -> Node {
    Node::text(text.as_bytes())
}

pub fn methods(list: &[&str]) -> Node {
    Node::array(list.iter().map(|method| words(method)).collect())
}

/// A custom caveat with this value.
pub fn custom(value: Node) -> Node {
    caveat_of("custom", Node::map(vec![("ns", words("shop")), ("cbor", value), ("name", words("shift"))]))
}

/// The shortest caveat that always holds.
pub fn idle() -> Node {
    caveat_of("amnesia", Node::simple(20))
}

/// The fresh token with these caveats.
pub fn with(caveats: Vec<Node>) -> Triple {
    Case { caveats, ..fresh() }.laid()
}

/// The fresh token with one caveat.
pub fn one(t: &str, v: Node) -> Triple {
    with(vec![caveat_of(t, v)])
}

/// The fresh token with another scope.
pub fn scoped(scope: Node) -> Triple {
    Case { scope, ..fresh() }.laid()
}

/// The fresh token in a request that differs.
pub fn asked(change: impl FnOnce(&mut Request)) -> Case {
    let mut case = fresh();
    change(&mut case.request);
    case
}

/// A token with one caveat in a request that differs.
pub fn asked_with(t: &str, v: Node, change: impl FnOnce(&mut Request)) -> Triple {
    Case { caveats: vec![caveat_of(t, v)], ..asked(change) }.laid()
}

/// The fresh token as a tree.
pub fn tree() -> Node {
    let case = fresh();
    case.tree(&case.tag())
}

/// The fresh token with something else as the value of one of its keys.
pub fn field(key: &str, value: Node) -> Triple {
    let at = TOKEN_KEYS.iter().position(|known| *known == key).expect("a key of a token");
    let mut tree = tree();
    tree.items[2 * at + 1] = value;
    bytes(&tree.laid())
}

/// Some bytes as the token.
pub fn bytes(token: &[u8]) -> Triple {
    fresh().with_token(token)
}

pub fn text(text: impl Into<Vec<u8>>) -> Triple {
    fresh().with_text(text.into())
}
