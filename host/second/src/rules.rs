//! What holds when: document 01's sentences on scopes and caveats, one by one, with document 02's M-100 on
//! paths. Sums are of whole numbers, and a part that the request does not have fails every caveat that asks
//! for it.

use crate::caveat::Demand;
use crate::cbor::{run, TEXT};
use crate::cidr::Prefix;
use crate::cursor::{List, Span};
use crate::request::Request;
use crate::scope::Scope;

pub const METHOD: u32 = 10;
pub const PATH: u32 = 11;
pub const BYTES: u32 = 12;
pub const EXP: u32 = 13;
pub const NBF: u32 = 14;
pub const AUD: u32 = 15;
pub const IP: u32 = 16;
pub const RATE: u32 = 17;
pub const TENANT: u32 = 18;
pub const AMNESIA: u32 = 19;
pub const POLICY_DIGEST: u32 = 20;
pub const CUSTOM: u32 = 21;

/// What a scope or a caveat is held against, and the bytes that their places are of.
#[derive(Clone, Copy)]
pub struct Asked<'a> {
    pub request: &'a Request,
    pub request_bytes: &'a [u8],
    pub token_bytes: &'a [u8],
    pub tid: &'a [u8],
}

/// The first rule that a scope breaks, in the order method, path, bytes.
pub fn scope(asked: &Asked, scope: &Scope) -> Result<(), u32> {
    hold(asked.method_in(scope.methods), METHOD)?;
    hold(scope.prefix.map_or(true, |prefix| asked.path_under(prefix)), PATH)?;
    hold(scope.max_bytes.map_or(true, |most| asked.request.body_size <= most), BYTES)
}

/// The number of the rule that a caveat breaks, if it does not hold.
pub fn caveat(asked: &Asked, demand: &Demand) -> Result<(), u32> {
    let request = asked.request;
    match *demand {
        Demand::Exp(exp) => hold(later(exp, request.skew) >= request.now.into(), EXP),
        Demand::Nbf(nbf) => hold(later(request.now, request.skew) >= nbf.into(), NBF),
        Demand::Aud(audience) => hold(asked.equal(request.audience, audience), AUD),
        Demand::Method(methods) => hold(asked.method_in(methods), METHOD),
        Demand::PathPrefix(prefix) => hold(asked.path_under(prefix), PATH),
        Demand::IpCidr(prefix) => hold(asked.peer_in(prefix), IP),
        Demand::BytesLe(most) => hold(request.body_size <= most, BYTES),
        Demand::Rate { per_s, burst } => hold(asked.rate_within(per_s, burst), RATE),
        Demand::Tenant(tenant) => hold(asked.said(tenant) == asked.tid, TENANT),
        Demand::Amnesia(needed) => hold(request.amnesia || !needed, AMNESIA),
        Demand::GovPolicyDigest(digest) => hold(asked.equal(request.digest, digest), POLICY_DIGEST),
        Demand::Custom { .. } => Err(CUSTOM),
    }
}

fn hold(holds: bool, number: u32) -> Result<(), u32> {
    if holds { Ok(()) } else { Err(number) }
}

/// A time and a skew together, past 2^64 too.
fn later(time: u64, skew: u64) -> u128 {
    u128::from(time) + u128::from(skew)
}

impl<'a> Asked<'a> {
    fn stated(&self, (from, to): Span) -> &'a [u8] {
        &self.request_bytes[from..to]
    }

    fn said(&self, (from, to): Span) -> &'a [u8] {
        &self.token_bytes[from..to]
    }

    /// Whether a part is there and equal to what the token says.
    fn equal(&self, part: Option<Span>, said: Span) -> bool {
        part.is_some_and(|part| self.stated(part) == self.said(said))
    }

    /// Whether the path is the prefix, or goes on behind it where a "/" parts them: the prefix's last byte or
    /// the next one.
    fn path_under(&self, prefix: Span) -> bool {
        let prefix = self.said(prefix);
        let rest = self.stated(self.request.path).strip_prefix(prefix);
        rest.is_some_and(|rest| rest.is_empty() || rest[0] == b'/' || prefix.ends_with(b"/"))
    }

    /// Whether the method is one of a list, which was read well before.
    fn method_in(&self, list: List) -> bool {
        let method = self.stated(self.request.method);
        let mut at = list.from;
        (0..list.count).any(|_| match run(self.token_bytes, at, TEXT, 0, u64::MAX) {
            Ok(span) => {
                at = span.1;
                self.said(span) == method
            }
            Err(_) => false,
        })
    }

    /// The peer's bytes stand as they are written, the highest first.
    fn peer_in(&self, prefix: Prefix) -> bool {
        let peer = self.request.peer.and_then(|peer| self.stated(peer).try_into().ok());
        peer.is_some_and(|peer| {
            let apart = prefix.address ^ u32::from_be_bytes(peer);
            // All 32 bits pushed out is more than a shift can do, and leaves none.
            apart.checked_shr(32 - prefix.size).unwrap_or(0) == 0
        })
    }

    fn rate_within(&self, per_s: u64, burst: u64) -> bool {
        let stated = self.request.rate;
        stated.is_some_and(|rate| u64::from(rate.per_s) <= per_s && u64::from(rate.burst) <= burst)
    }
}

#[cfg(test)]
mod tests {
    use super::*;
    use crate::request::{self, Fields, Rate};
    use crate::{caveat, scope};

    const DIGEST: &[u8; 64] = b"00112233445566778899aabbccddeeff00112233445566778899aabbccddeeff";

    fn full() -> Fields<'static> {
        Fields {
            now: 1_767_225_600,
            body_size: 65_536,
            skew: 300,
            amnesia: true,
            peer: Some([10, 255, 255, 255]),
            digest: Some(DIGEST),
            rate: Some(Rate { per_s: 5, burst: 7 }),
            method: b"GET",
            path: b"/o/b3:abcd/some",
            tenant: b"t",
            audience: Some(b"relay"),
        }
    }

    fn bare() -> Fields<'static> {
        Fields { amnesia: false, peer: None, digest: None, rate: None, audience: None, ..full() }
    }

    /// What a rule says of bytes from a token and a request.
    fn judged(fields: &Fields, bytes: &[u8], rule: impl Fn(&Asked) -> Result<(), u32>) -> u32 {
        let laid = request::write(fields);
        let request = request::read(&laid).unwrap();
        let asked = Asked { request: &request, request_bytes: &laid, token_bytes: bytes, tid: b"t.1" };
        rule(&asked).err().unwrap_or(0)
    }

    fn with(fields: &Fields, t: &str, v: &[u8]) -> u32 {
        let bytes = [&[0xa2, 0x61, b't', 0x60 + t.len() as u8], t.as_bytes(), b"\x61v", v].concat();
        let demand = caveat::read(&bytes, 0).unwrap().demand;
        judged(fields, &bytes, |asked| super::caveat(asked, &demand))
    }

    fn within(fields: &Fields, bytes: &[u8]) -> u32 {
        let read = scope::read(bytes, 0).unwrap();
        judged(fields, bytes, |asked| super::scope(asked, &read))
    }

    fn number(number: u64) -> Vec<u8> {
        crate::cbor::written_head(0, number)
    }

    #[test]
    fn times_are_sums_of_whole_numbers() {
        let exp = [0x1a, 0x69, 0x55, 0xb9, 0];
        assert_eq!(with(&Fields { now: 1_767_225_900, ..full() }, "exp", &exp), 0);
        assert_eq!(with(&Fields { now: 1_767_225_901, ..full() }, "exp", &exp), EXP);
        let last = Fields { now: u64::MAX, ..full() };
        for (exp, wanted) in [(u64::MAX, 0), (u64::MAX - 300, 0), (u64::MAX - 301, EXP), (0, EXP)] {
            assert_eq!(with(&last, "exp", &number(exp)), wanted, "{exp}");
        }
        assert_eq!(with(&last, "nbf", &number(u64::MAX)), 0);
        let early = Fields { now: 0, ..full() };
        for (nbf, wanted) in [(0, 0), (300, 0), (301, NBF), (u64::MAX, NBF)] {
            assert_eq!(with(&early, "nbf", &number(nbf)), wanted, "{nbf}");
        }
    }

    #[test]
    fn addresses_by_their_first_bits() {
        for (peer, wanted) in [([10, 255, 255, 255], 0), ([11, 0, 0, 0], IP), ([9, 255, 255, 255], IP)] {
            assert_eq!(with(&Fields { peer: Some(peer), ..full() }, "ip_cidr", b"\x6a10.0.0.0/8"), wanted);
        }
        assert_eq!(with(&full(), "ip_cidr", b"\x690.0.0.0/0"), 0);
        assert_eq!(with(&bare(), "ip_cidr", b"\x690.0.0.0/0"), IP);
        assert_eq!(with(&full(), "ip_cidr", b"\x7110.255.255.255/32"), 0);
        assert_eq!(with(&full(), "ip_cidr", b"\x7110.255.255.254/32"), IP);
        assert_eq!(with(&full(), "ip_cidr", b"\x7110.255.255.254/31"), 0);
    }

    #[test]
    fn texts_are_equal_to_a_part_that_is_there() {
        assert_eq!(with(&full(), "aud", b"\x65relay"), 0);
        assert_eq!(with(&full(), "aud", b"\x64rela"), AUD);
        assert_eq!(with(&full(), "aud", b"\x66relay1"), AUD);
        assert_eq!(with(&bare(), "aud", b"\x65relay"), AUD);
        let digest = [&[0x78, 64], &DIGEST[..]].concat();
        assert_eq!(with(&full(), "gov_policy_digest", &digest), 0);
        assert_eq!(with(&bare(), "gov_policy_digest", &digest), POLICY_DIGEST);
        let other = [&digest[..65], b"0"].concat();
        assert_eq!(with(&full(), "gov_policy_digest", &other), POLICY_DIGEST);
        // The token's tid counts, not the request's tenant.
        assert_eq!(with(&full(), "tenant", b"\x63t.1"), 0);
        assert_eq!(with(&full(), "tenant", b"\x61t"), TENANT);
    }

    #[test]
    fn methods_and_paths() {
        assert_eq!(with(&full(), "method", b"\x82\x63PUT\x63GET"), 0);
        assert_eq!(with(&full(), "method", b"\x82\x64GETS\x62GE"), METHOD);
        assert_eq!(with(&full(), "method", b"\x80"), METHOD);
        assert_eq!(with(&full(), "path_prefix", b"\x6a/o/b3:abcd"), 0);
        assert_eq!(with(&full(), "path_prefix", b"\x6f/o/b3:abcd/some"), 0);
        assert_eq!(with(&full(), "path_prefix", b"\x70/o/b3:abcd/some1"), PATH);
        assert_eq!(with(&full(), "path_prefix", b"\x62/p"), PATH);
    }

    #[test]
    fn a_prefix_ends_where_a_segment_does() {
        let cases: [(&[u8], &[u8], u32); 9] = [
            (b"\x68/relay/1", b"/relay/1", 0),
            (b"\x68/relay/1", b"/relay/1/count", 0),
            (b"\x68/relay/1", b"/relay/12", PATH),
            (b"\x68/relay/1", b"/relay/1?n", PATH),
            (b"\x68/relay/1", b"/relay/1#n", PATH),
            (b"\x69/relay/1/", b"/relay/1", PATH),
            (b"\x69/relay/1/", b"/relay/1/count", 0),
            (b"\x69/relay/1/", b"/relay/12/", PATH),
            (b"\x61/", b"/relay/12", 0),
        ];
        for (prefix, path, wanted) in cases {
            let asked = Fields { path, ..full() };
            let scope = [b"\xa2\x66prefix", prefix, b"\x67methods\x81\x63GET"].concat();
            let said = String::from_utf8_lossy(path);
            assert_eq!(with(&asked, "path_prefix", prefix), wanted, "{said}");
            assert_eq!(within(&asked, &scope), wanted, "{said}");
        }
    }

    #[test]
    fn rates_and_amnesia_and_bytes_and_what_never_holds() {
        let rate = |burst: u8, per_s: u8| [b"\xa2\x65burst", &[burst][..], b"\x65per_s", &[per_s]].concat();
        for (burst, per_s, wanted) in [(7, 5, 0), (23, 23, 0), (6, 5, RATE), (7, 4, RATE), (5, 7, RATE)] {
            assert_eq!(with(&full(), "rate", &rate(burst, per_s)), wanted, "{burst} and {per_s}");
        }
        assert_eq!(with(&bare(), "rate", &rate(23, 23)), RATE);
        assert_eq!(with(&full(), "amnesia", b"\xf5"), 0);
        assert_eq!(with(&bare(), "amnesia", b"\xf5"), AMNESIA);
        assert_eq!(with(&full(), "amnesia", b"\xf4") + with(&bare(), "amnesia", b"\xf4"), 0);
        assert_eq!(with(&full(), "bytes_le", b"\x1a\0\x01\0\0"), 0);
        assert_eq!(with(&full(), "bytes_le", b"\x19\xff\xff"), BYTES);
        assert_eq!(with(&full(), "custom", b"\xa3\x62ns\x61a\x64cbor\xf5\x64name\x61b"), CUSTOM);
    }

    #[test]
    fn scopes_in_the_order_method_path_bytes() {
        assert_eq!(within(&full(), b"\xa1\x67methods\x81\x63GET"), 0);
        assert_eq!(within(&full(), b"\xa1\x67methods\x80"), METHOD);
        assert_eq!(within(&full(), b"\xa2\x66prefix\x62/o\x67methods\x81\x63GET"), 0);
        let all = |prefix: u8, method: u8, most: &[u8]| {
            let front = [b"\xa3\x66prefix\x62/", &[prefix][..], b"\x67methods\x81\x63GE", &[method]].concat();
            within(&full(), &[&front, &b"\x69max_bytes"[..], most].concat())
        };
        assert_eq!(all(b'o', b'T', b"\x1a\0\x01\0\0"), 0);
        assert_eq!(all(b'o', b'T', b"\x19\xff\xff"), BYTES);
        assert_eq!(all(b'p', b'T', b"\x19\xff\xff"), PATH);
        assert_eq!(all(b'p', b'X', b"\x19\xff\xff"), METHOD);
    }
}
