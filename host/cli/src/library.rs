//! What the library says. No rule about tables, requests, scopes, caveats or tokens stands in this tool: where
//! it must know whether one is good, it asks an entry point with all else empty or known to be good. Each
//! `.._answer` is the reason why the library refuses the thing, or 0.

use archive::Written;

use crate::files::TEXT;
use crate::{items, records, request};

pub const TABLE_BAD: u32 = 1;
pub const CTX_BAD: u32 = 2;
pub const PARSE_B64: u32 = 3;
pub const PARSE_BOUNDS: u32 = 5;
pub const UNKNOWN_FIELD: u32 = 6;
pub const KID_UNKNOWN: u32 = 7;
pub const MAC_MISMATCH: u32 = 8;
pub const CAV_CBOR: u32 = 31;
pub const CAV_UNKNOWN: u32 = 33;

/// The text, or why there is none.
pub fn issue(table: &[u8], tid: &str, kid: &str, scope: &[u8]) -> Result<Vec<u8>, u32> {
    written(|room| archive::issue(table, tid.as_bytes(), kid.as_bytes(), scope, room))
}

pub fn narrow(table: &[u8], token: &[u8], caveat: &[u8]) -> Result<Vec<u8>, u32> {
    written(|room| archive::narrow(table, token, caveat, room))
}

fn written(call: impl FnOnce(&mut [u8]) -> Written) -> Result<Vec<u8>, u32> {
    let mut room = vec![0; TEXT];
    let Written { answer, length } = call(&mut room);
    room.truncate(length as usize);
    if answer == 0 { Ok(room) } else { Err(answer) }
}

fn among(answer: u32, reasons: std::ops::RangeInclusive<u32>) -> u32 {
    if reasons.contains(&answer) { answer } else { 0 }
}

/// Issue judges the table first of all, and then the scope, which is none here.
pub fn table_answer(table: &[u8]) -> u32 {
    among(archive::issue(table, b"", b"", b"", &mut []).answer, TABLE_BAD..=TABLE_BAD)
}

pub fn table_is_good(table: &[u8]) -> bool {
    table_answer(table) == 0
}

/// Verify judges the request behind the table, which may be empty, and before the token.
pub fn request_answer(request: &[u8]) -> u32 {
    among(archive::verify(b"", request, b""), CTX_BAD..=CTX_BAD)
}

/// Issue reads the scope before it looks for a key, of which an empty table has none.
pub fn scope_answer(scope: &[u8]) -> u32 {
    among(archive::issue(b"", b"", b"", scope, &mut []).answer, PARSE_B64..=UNKNOWN_FIELD)
}

/// Verify reads the token before it looks for a key.
pub fn token_answer(token: &[u8]) -> u32 {
    among(archive::verify(b"", &request::plain("t"), token), PARSE_B64..=UNKNOWN_FIELD)
}

/// Whether the table has a readable token's key and the tag is right under it: verify judges both before anything
/// that a request could fail.
pub fn tag_answer(table: &[u8], token: &[u8], tid: &str) -> u32 {
    let answer = archive::verify(table, &request::plain(tid), token);
    among(answer, TABLE_BAD..=TABLE_BAD).max(among(answer, KID_UNKNOWN..=MAC_MISMATCH))
}

/// Narrow reads the caveat once its parent is good, so one is made under a key that counts for nothing else.
pub fn caveat_answer(caveat: &[u8]) -> u32 {
    let table = records::row("t", "k", &[0; 32]).unwrap_or_default();
    let parent = issue(&table, "t", "k", &items::map(&[("methods", items::texts(&[]))])).unwrap_or_default();
    among(archive::narrow(&table, &parent, caveat, &mut []).answer, CAV_CBOR..=CAV_UNKNOWN)
}
