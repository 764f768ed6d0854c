//! The verifier: a key table, a request and a token's text in, document 01's number out. Each of the
//! three is read once; the token is decoded into one piece of memory and judged where it lies there.

use crate::base64url;
use crate::cbor::PARSE_BOUNDS;
use crate::chain::{official, same, Chain, Key, Mac};
use crate::cursor::Span;
use crate::rules::{self, Asked};
use crate::table::Row;
use crate::token::Whole;
use crate::{request, table, token};

pub const ALLOW: u32 = 0;
pub const TABLE_BAD: u32 = 1;
pub const CTX_BAD: u32 = 2;
pub const PARSE_B64: u32 = 3;
pub const KID_UNKNOWN: u32 = 7;
pub const MAC_MISMATCH: u32 = 8;
pub const TENANT_MISMATCH: u32 = 9;

/// How many characters a token's text may have.
const TEXT: usize = 5462;

pub fn verify(table: &[u8], request: &[u8], token: &[u8]) -> u32 {
    verify_with(official, table, request, token)
}

/// The same under another function for the links.
pub fn verify_with(mac: impl Mac, table: &[u8], request: &[u8], token: &[u8]) -> u32 {
    match judge(mac, table, request, token) {
        Ok(()) => ALLOW,
        Err(number) => number,
    }
}

fn judge(mac: impl Mac, table: &[u8], request: &[u8], text: &[u8]) -> Result<(), u32> {
    let rows = table::read(table).ok_or(TABLE_BAD)?;
    let read = request::read(request).ok_or(CTX_BAD)?;
    let genuine = genuine(mac, &rows, text)?;
    let (bytes, whole) = (&genuine.bytes, &genuine.whole);
    let tid = genuine.part(whole.token.tid);
    if &request[read.tenant.0..read.tenant.1] != tid {
        return Err(TENANT_MISMATCH);
    }
    let asked = Asked { request: &read, request_bytes: request, token_bytes: bytes, tid };
    rules::scope(&asked, &whole.scope)?;
    whole.caveats.iter().try_for_each(|caveat| rules::caveat(&asked, &caveat.demand))
}

/// A token that reads well and whose tag is the last link of its chain.
pub(crate) struct Genuine<'k, M> {
    pub bytes: Vec<u8>,
    pub whole: Whole,
    pub chain: Chain<'k, M>,
}

impl<M> Genuine<'_, M> {
    pub fn part(&self, (from, to): Span) -> &[u8] {
        &self.bytes[from..to]
    }
}

/// What a text holds, judged up to its tag under the key that a good table has for it.
pub(crate) fn genuine<'k, M: Mac>(mac: M, rows: &[Row<'k>], text: &[u8]) -> Result<Genuine<'k, M>, u32> {
    if text.len() > TEXT {
        return Err(PARSE_BOUNDS);
    }
    let bytes = base64url::decode(text).map_err(|_| PARSE_B64)?;
    let whole = token::read_whole(&bytes).map_err(|defect| defect.number)?;
    let part = |(from, to): Span| &bytes[from..to];
    let key = key_under(rows, part(whole.token.tid), part(whole.token.kid))?;
    let chain = chain_of(mac, key, &bytes, &whole);
    if !same(chain.link(), part(whole.token.tag)) {
        return Err(MAC_MISMATCH);
    }
    Ok(Genuine { bytes, whole, chain })
}

/// The key that a good table has under both ids.
pub(crate) fn key_under<'k>(rows: &[Row<'k>], tid: &[u8], kid: &[u8]) -> Result<&'k Key, u32> {
    table::find(rows, tid, kid).and_then(|key| key.try_into().ok()).ok_or(KID_UNKNOWN)
}

/// The chain over the ids, the scope and the caveats of a token, whatever its tag is.
fn chain_of<'k, M: Mac>(mac: M, key: &'k Key, bytes: &[u8], whole: &Whole) -> Chain<'k, M> {
    let part = |(from, to): Span| &bytes[from..to];
    let Whole { token, caveats, .. } = whole;
    let mut chain = Chain::new(mac, key, part(token.tid), part(token.kid), part(token.scope));
    let mut from = token.caveats.from;
    for caveat in caveats {
        chain.narrow(part((from, caveat.next)));
        from = caveat.next;
    }
    chain
}

#[cfg(test)]
mod tests {
    use super::*;
    use crate::chain::tag;
    use crate::request::Fields;

    const KEY: &Key = b"whats the Elvish word for friend";
    const SCOPE: &[u8] = b"\xa1\x67methods\x81\x63GET";
    const EXP: &[u8] = b"\xa2\x61t\x63exp\x61v\x1a\x69\x55\xb9\0";
    const AMNESIA: &[u8] = b"\xa2\x61t\x67amnesia\x61v\xf5";

    fn rows() -> Vec<u8> {
        table::write(&[Row { tid: b"t", kid: b"k", key: KEY }])
    }

    fn asking(now: u64, tenant: &[u8]) -> Vec<u8> {
        request::write(&Fields {
            now,
            body_size: 0,
            skew: 300,
            amnesia: false,
            peer: None,
            digest: None,
            rate: None,
            method: b"GET",
            path: b"/",
            tenant,
            audience: None,
        })
    }

    fn token(kid: &[u8], caveats: &[&[u8]]) -> Vec<u8> {
        let fields = token::Fields {
            count: caveats.len() as u64,
            caveats: &caveats.concat(),
            caveat: b"",
            scope: SCOPE,
            tag: &tag(KEY, b"t", kid, SCOPE, caveats),
            kid,
            tid: b"t",
        };
        base64url::encode(&token::write(&fields))
    }

    #[test]
    fn the_expiry_on_the_line() {
        let text = token(b"k", &[EXP]);
        assert_eq!(verify(&rows(), &asking(1_767_225_900, b"t"), &text), ALLOW);
        assert_eq!(verify(&rows(), &asking(1_767_225_901, b"t"), &text), rules::EXP);
    }

    #[test]
    fn each_answer_before_the_rules() {
        let (rows, asking, text) = (rows(), asking(0, b"t"), token(b"k", &[EXP]));
        assert_eq!(verify(&rows, &asking, &text), ALLOW);
        assert_eq!(verify(&rows[1..], &asking[1..], &text), TABLE_BAD);
        assert_eq!(verify(&rows, &asking[1..], &[b'='; 6000]), CTX_BAD);
        assert_eq!(verify(&rows, &asking, &[b'='; 5463]), PARSE_BOUNDS);
        assert_eq!(verify(&rows, &asking, &[b'='; 5462]), PARSE_B64);
        assert_eq!(verify(&rows, &asking, &[b'A'; 5461]), PARSE_B64);
        assert_eq!(verify(&rows, &asking, b""), 4);
        assert_eq!(verify(&rows, &asking, b"pw"), 6);
        assert_eq!(verify(b"", &asking, &text), KID_UNKNOWN);
        assert_eq!(verify(&rows, &asking, &token(b"other", &[EXP])), KID_UNKNOWN);
    }

    #[test]
    fn the_tag_is_judged_before_the_tenant_and_that_before_the_rules() {
        let rows = rows();
        let text = token(b"k", &[AMNESIA, EXP]);
        let mut bytes = base64url::decode(&text).unwrap();
        assert_eq!(verify(&rows, &asking(u64::MAX, b"t"), &text), rules::AMNESIA);
        assert_eq!(verify(&rows, &asking(u64::MAX, b"u"), &text), TENANT_MISMATCH);
        let place = token::read(&bytes).unwrap().tag.1 - 1;
        bytes[place] ^= 1;
        assert_eq!(verify(&rows, &asking(u64::MAX, b"u"), &base64url::encode(&bytes)), MAC_MISMATCH);
    }

    #[test]
    fn the_links_are_made_by_the_function_that_is_given() {
        let text = token(b"k", &[EXP]);
        let other = |key: &Key, message: &[u8]| official(key, &[message, b"."].concat());
        assert_eq!(verify_with(other, &rows(), &asking(0, b"t"), &text), MAC_MISMATCH);
    }
}
