//! One caveat, of the twelve kinds that document 01 knows. All places are those of the bytes in which
//! the caveat lies, so one in the middle of a token is read there.

use crate::cbor::{head, malformed, unknown, Class, Defect, UNSIGNED};
use crate::cidr::{self, Prefix};
use crate::cursor::{required, without_range, Cursor, Key, List, Map, Span};
use crate::scope::{methods, path};
use crate::values;

const KEYS: [Key; 2] = [required("t"), required("v")];
const RATE: [Key; 2] = [required("burst"), required("per_s")];
const CUSTOM: [Key; 3] = [required("ns"), required("cbor"), required("name")];

const SIMPLE: u8 = 7;
const FALSE: u64 = 20;
const TRUE: u64 = 21;
const DEPTH: u8 = 4;

/// What a caveat demands.
#[derive(Clone, Copy, Debug, PartialEq, Eq)]
pub enum Demand {
    Exp(u64),
    Nbf(u64),
    Aud(Span),
    Method(List),
    PathPrefix(Span),
    IpCidr(Prefix),
    BytesLe(u64),
    Rate { per_s: u64, burst: u64 },
    Tenant(Span),
    Amnesia(bool),
    GovPolicyDigest(Span),
    Custom { ns: Span, value: Span, name: Span },
}

/// What a caveat says, and the place behind it.
#[derive(Clone, Copy, Debug, PartialEq, Eq)]
pub struct Caveat {
    pub demand: Demand,
    pub next: usize,
}

pub fn read(s: &[u8], at: usize) -> Result<Caveat, Defect> {
    read_on(&mut Cursor { s, at })
}

type Reader = fn(&mut Cursor) -> Result<Demand, Defect>;

pub(crate) fn read_on(cursor: &mut Cursor) -> Result<Caveat, Defect> {
    let mut map = Map::open(cursor, &KEYS)?;
    let reader = map.must("t", kind)?;
    let demand = map.must("v", reader)?;
    Ok(Caveat { demand, next: cursor.at })
}

/// How the value that goes with t is read.
fn kind(cursor: &mut Cursor) -> Result<Reader, Defect> {
    let at = cursor.at;
    let (from, to) = cursor.any_text()?;
    let reader: Reader = match &cursor.s[from..to] {
        b"exp" => |cursor| cursor.number(UNSIGNED).map(Demand::Exp),
        b"nbf" => |cursor| cursor.number(UNSIGNED).map(Demand::Nbf),
        b"aud" => |cursor| cursor.text(Class::Printable, 1, 128).map(Demand::Aud),
        b"method" => |cursor| methods(cursor).map(Demand::Method),
        b"path_prefix" => |cursor| path(cursor).map(Demand::PathPrefix),
        b"ip_cidr" => |cursor| address(cursor).map(Demand::IpCidr),
        b"bytes_le" => |cursor| cursor.number(UNSIGNED).map(Demand::BytesLe),
        b"rate" => rate,
        b"tenant" => |cursor| name(cursor).map(Demand::Tenant),
        b"amnesia" => |cursor| truth(cursor).map(Demand::Amnesia),
        b"gov_policy_digest" => |cursor| digest(cursor).map(Demand::GovPolicyDigest),
        b"custom" => custom,
        _ => return Err(unknown(at)),
    };
    Ok(reader)
}

/// An identifier, here or in a token.
pub(crate) fn name(cursor: &mut Cursor) -> Result<Span, Defect> {
    cursor.text(Class::Name, 1, 64)
}

fn address(cursor: &mut Cursor) -> Result<Prefix, Defect> {
    let (from, to) = cursor.any_text()?;
    cidr::read(&cursor.s[from..to]).ok_or(malformed(from))
}

fn digest(cursor: &mut Cursor) -> Result<Span, Defect> {
    without_range(cursor.text(Class::Hex, 64, 64))
}

fn truth(cursor: &mut Cursor) -> Result<bool, Defect> {
    let head = head(cursor.s, cursor.at)?;
    let truth = match (head.major, head.value) {
        (SIMPLE, FALSE) => false,
        (SIMPLE, TRUE) => true,
        _ => return Err(malformed(cursor.at)),
    };
    cursor.at = head.next;
    Ok(truth)
}

fn rate(cursor: &mut Cursor) -> Result<Demand, Defect> {
    let most = u64::from(u32::MAX);
    let mut map = Map::open(cursor, &RATE)?;
    let burst = map.must("burst", |cursor| cursor.at_most(UNSIGNED, most))?;
    let per_s = map.must("per_s", |cursor| cursor.at_most(UNSIGNED, most))?;
    Ok(Demand::Rate { per_s, burst })
}

fn custom(cursor: &mut Cursor) -> Result<Demand, Defect> {
    let mut map = Map::open(cursor, &CUSTOM)?;
    let ns = map.must("ns", name)?;
    let value = map.must("cbor", value)?;
    let name = map.must("name", name)?;
    Ok(Demand::Custom { ns, value, name })
}

fn value(cursor: &mut Cursor) -> Result<Span, Defect> {
    let from = cursor.at;
    cursor.at = values::value(cursor.s, from, DEPTH)?;
    Ok((from, cursor.at))
}

#[cfg(test)]
mod tests {
    use super::*;
    use crate::cbor::out_of_bounds;

    /// A caveat of kind `t` with these bytes as its value, and where the value begins.
    fn caveat(t: &str, v: &[u8]) -> (Vec<u8>, usize) {
        let front = [&[0xa2, 0x61, b't', 0x60 + t.len() as u8], t.as_bytes(), b"\x61v"].concat();
        let at = front.len();
        ([&front, v].concat(), at)
    }

    fn demand(t: &str, v: &[u8]) -> Demand {
        let (bytes, _) = caveat(t, v);
        let read = read(&bytes, 0).unwrap();
        assert_eq!(read.next, bytes.len());
        read.demand
    }

    /// The defect, its place counted from the value's first byte.
    fn refused(t: &str, v: &[u8]) -> (u32, usize) {
        let (bytes, at) = caveat(t, v);
        let defect = read(&bytes, 0).unwrap_err();
        (defect.number, defect.place - at)
    }

    #[test]
    fn each_kind() {
        assert_eq!(demand("exp", &[0x1a, 0x69, 0x55, 0xb9, 0]), Demand::Exp(1_767_225_600));
        assert_eq!(demand("nbf", &[0x17]), Demand::Nbf(23));
        assert_eq!(demand("aud", b"\x62!~"), Demand::Aud((10, 12)));
        assert_eq!(demand("method", b"\x81\x61A"), Demand::Method(List { count: 1, from: 13, to: 15 }));
        assert_eq!(demand("path_prefix", b"\x61/"), Demand::PathPrefix((18, 19)));
        let prefix = Prefix { address: 0x0a00_0000, size: 8 };
        assert_eq!(demand("ip_cidr", b"\x6a10.0.0.0/8"), Demand::IpCidr(prefix));
        assert_eq!(demand("bytes_le", &[0x19, 255, 255]), Demand::BytesLe(65_535));
        let rate = b"\xa2\x65burst\x07\x65per_s\x1a\xff\xff\xff\xff";
        assert_eq!(demand("rate", rate), Demand::Rate { per_s: 0xffff_ffff, burst: 7 });
        assert_eq!(demand("tenant", b"\x61-"), Demand::Tenant((13, 14)));
        assert_eq!(demand("amnesia", &[0xf4]), Demand::Amnesia(false));
        assert_eq!(demand("amnesia", &[0xf5]), Demand::Amnesia(true));
        let digest = [&[0x78, 64], &[b'f'; 64][..]].concat();
        assert_eq!(demand("gov_policy_digest", &digest), Demand::GovPolicyDigest((25, 89)));
        let custom = b"\xa3\x62ns\x61a\x64cbor\x82\x00\xf6\x64name\x61b";
        assert_eq!(demand("custom", custom), Demand::Custom { ns: (17, 18), value: (23, 26), name: (32, 33) });
    }

    #[test]
    fn t_is_judged_before_the_next_key() {
        assert_eq!(read(b"\xa2\x61t\x61x\xff", 0), Err(unknown(3)));
        assert_eq!(read(b"\xa2\x61t\x43exp\x61v\x00", 0), Err(malformed(3)));
        assert_eq!(read(b"\xa2\x61t\x63exp\x61w\x00", 0), Err(unknown(7)));
        assert_eq!(read(b"\xa2\x61t\x63exp\x61t\x00", 0), Err(malformed(7)));
        assert_eq!(read(b"\xa2\x61v\x00\x61t\x63exp", 0), Err(malformed(1)));
        assert_eq!(read(b"\xa1\x61t\x63exp", 0), Err(malformed(0)));
        assert_eq!(read(b"\xa3", 0), Err(unknown(0)));
        assert_eq!(read(b"..\xa2\x61t\x63exp", 2), Err(malformed(9)));
    }

    #[test]
    fn values_that_are_refused() {
        assert_eq!(refused("exp", &[0x20]), (4, 0));
        assert_eq!(refused("amnesia", &[0xf6]), (4, 0));
        assert_eq!(refused("amnesia", &[0xf8, 0x15]), (4, 0));
        assert_eq!(refused("aud", &[0x60]), (5, 0));
        assert_eq!(refused("aud", b"\x61 "), (4, 1));
        assert_eq!(refused("method", &[0x91]), (5, 0));
        assert_eq!(refused("ip_cidr", &[0x60]), (4, 1));
        assert_eq!(refused("ip_cidr", b"\x6a10.0.0.1/8"), (4, 1));
        assert_eq!(refused("ip_cidr", b"\x6b10.0.0.0/8"), (4, 0));
        assert_eq!(refused("gov_policy_digest", &[0x78, 65]), (4, 0));
        assert_eq!(refused("gov_policy_digest", b"\x63xyz"), (4, 0));
        assert_eq!(refused("gov_policy_digest", &[&[0x78, 64], &[b'F'; 64][..]].concat()), (4, 2));
    }

    #[test]
    fn rates_and_custom_values_that_are_refused() {
        let large = b"\x1b\0\0\0\x01\0\0\0\0";
        assert_eq!(refused("rate", &[b"\xa2\x65burst", &large[..], b"\xff"].concat()), (5, 7));
        assert_eq!(refused("rate", b"\xa2\x65per_s\x00"), (4, 1));
        assert_eq!(refused("rate", b"\xa3"), (6, 0));
        assert_eq!(refused("rate", b"\xa1"), (4, 0));
        assert_eq!(refused("custom", b"\xa3\x62ns\x61a\x64name"), (4, 6));
        let deep = b"\xa3\x62ns\x61a\x64cbor\x81\x81\x81\x81\x80";
        assert_eq!(refused("custom", deep), (5, 15));
        assert_eq!(read(&caveat("tenant", &[0x78, 65]).0, 0), Err(out_of_bounds(12)));
    }
}
