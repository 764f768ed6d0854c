//! The whole token: read as document 01 orders it, and written from its parts. A caveat or the scope
//! is read where it lies, so every place counts from the token's first byte.

use crate::caveat::{self, name, Caveat};
use crate::cbor::{malformed, unknown, written_head, Defect, ARRAY, BYTES, MAP, TEXT, UNSIGNED};
use crate::cursor::{required, without_range, Cursor, Key, List, Map, Span};
use crate::scope::{self, Scope};

const KEYS: [Key; 6] =
    [required("c"), required("r"), required("s"), required("v"), required("kid"), required("tid")];

/// How many caveats a token may have.
pub const CAVEATS: u64 = 64;
const TAG: u64 = 32;
const EDITION: u64 = 1;

/// Where the parts of a token lie.
#[derive(Clone, Copy, Debug, PartialEq, Eq)]
pub struct Token {
    pub caveats: List,
    pub scope: Span,
    pub tag: Span,
    pub kid: Span,
    pub tid: Span,
}

/// A token together with what its scope and its caveats say.
#[derive(Clone, Debug, PartialEq, Eq)]
pub struct Whole {
    pub token: Token,
    pub scope: Scope,
    pub caveats: Vec<Caveat>,
}

pub fn read(s: &[u8]) -> Result<Token, Defect> {
    read_each(s, |_| ()).map(|(token, _)| token)
}

/// The one reading, with all kept that it finds.
pub fn read_whole(s: &[u8]) -> Result<Whole, Defect> {
    let mut caveats = Vec::with_capacity(CAVEATS as usize);
    let (token, scope) = read_each(s, |caveat| caveats.push(caveat))?;
    Ok(Whole { token, scope, caveats })
}

/// Hands each caveat over as it is read.
fn read_each(s: &[u8], mut each: impl FnMut(Caveat)) -> Result<(Token, Scope), Defect> {
    let mut cursor = Cursor { s, at: 0 };
    let mut map = Map::open(&mut cursor, &KEYS)?;
    let caveats = map.must("c", |cursor| cursor.list(CAVEATS, |cursor| caveat::read_on(cursor).map(&mut each)))?;
    let (from, read) = map.must("r", |cursor| Ok((cursor.at, scope::read_on(cursor)?)))?;
    let tag = map.must("s", |cursor| without_range(cursor.run(BYTES, TAG, TAG)))?;
    map.must("v", edition)?;
    let kid = map.must("kid", name)?;
    let tid = map.must("tid", name)?;
    if cursor.at < s.len() {
        return Err(malformed(cursor.at));
    }
    Ok((Token { caveats, scope: (from, read.next), tag, kid, tid }, read))
}

fn edition(cursor: &mut Cursor) -> Result<(), Defect> {
    let at = cursor.at;
    match cursor.number(UNSIGNED)? {
        EDITION => Ok(()),
        _ => Err(unknown(at)),
    }
}

/// What a token is written from. The caveats come as they lie in a parent, with one more behind them;
/// `count` is said of both together.
#[derive(Clone, Copy, Debug)]
pub struct Fields<'a> {
    pub count: u64,
    pub caveats: &'a [u8],
    pub caveat: &'a [u8],
    pub scope: &'a [u8],
    pub tag: &'a [u8],
    pub kid: &'a [u8],
    pub tid: &'a [u8],
}

pub fn write(fields: &Fields) -> Vec<u8> {
    let entries = [
        [written_head(ARRAY, fields.count), fields.caveats.to_vec(), fields.caveat.to_vec()].concat(),
        fields.scope.to_vec(),
        written_string(BYTES, fields.tag),
        written_head(UNSIGNED, EDITION),
        written_string(TEXT, fields.kid),
        written_string(TEXT, fields.tid),
    ];
    let mut bytes = written_head(MAP, KEYS.len() as u64);
    for (key, value) in KEYS.iter().zip(entries) {
        bytes.extend(written_string(TEXT, key.name.as_bytes()));
        bytes.extend(value);
    }
    bytes
}

fn written_string(major: u8, content: &[u8]) -> Vec<u8> {
    [&written_head(major, content.len() as u64), content].concat()
}

#[cfg(test)]
mod tests {
    use super::*;
    use crate::caveat::Demand;
    use crate::cbor::out_of_bounds;

    const SCOPE: &[u8] = b"\xa1\x67methods\x80";
    const EXP: &[u8] = b"\xa2\x61t\x63exp\x61v\x00";

    fn fields<'a>(count: u64, caveats: &'a [u8]) -> Fields<'a> {
        Fields { count, caveats, caveat: b"", scope: SCOPE, tag: &[7; 32], kid: b"k", tid: b"t.1" }
    }

    #[test]
    fn a_token_is_written_and_read_back() {
        let bytes = write(&fields(0, b""));
        let wanted: [&[u8]; 5] = [
            b"\xa6\x61c\x80\x61r\xa1\x67methods\x80\x61s\x58\x20",
            &[7; 32],
            b"\x61v\x01",
            b"\x63kid\x61k",
            b"\x63tid\x63t.1",
        ];
        assert_eq!(bytes, wanted.concat());
        let caveats = List { count: 0, from: 4, to: 4 };
        let token = Token { caveats, scope: (6, 16), tag: (20, 52), kid: (60, 61), tid: (66, 69) };
        assert_eq!(read(&bytes), Ok(token));
        assert_eq!(read(&[&bytes[..], &[0]].concat()), Err(malformed(69)));
        assert_eq!(read(b""), Err(malformed(0)));
    }

    #[test]
    fn caveats_stand_behind_each_other() {
        let parent = EXP.repeat(23);
        let bytes = write(&Fields { caveat: EXP, ..fields(24, &parent) });
        assert_eq!(bytes[3..5], [0x98, 24]);
        assert_eq!(read(&bytes).map(|token| token.caveats), Ok(List { count: 24, from: 5, to: 5 + 24 * 10 }));
        let full = write(&fields(64, &EXP.repeat(64)));
        assert_eq!(read(&full).map(|token| token.caveats.count), Ok(64));
        assert_eq!(read(&write(&fields(65, &EXP.repeat(65)))), Err(out_of_bounds(3)));
        let spoiled = [EXP, b"\xa2\x61t\x63exp\x61v\x20"].concat();
        assert_eq!(read(&write(&fields(2, &spoiled))), Err(malformed(23)));
        assert_eq!(read(&write(&fields(2, EXP))), Err(malformed(14)));
        assert_eq!(read(&write(&fields(0, EXP))), Err(malformed(4)));
    }

    #[test]
    fn what_the_parts_say_is_kept() {
        let caveats = [EXP, b"\xa2\x61t\x67amnesia\x61v\xf5"].concat();
        let bytes = write(&fields(2, &caveats));
        let whole = read_whole(&bytes).unwrap();
        assert_eq!(Ok(whole.token), read(&bytes));
        let wanted = [Caveat { demand: Demand::Exp(0), next: 14 }, Caveat { demand: Demand::Amnesia(true), next: 28 }];
        assert_eq!(whole.caveats, wanted);
        assert_eq!(Ok(whole.scope), scope::read(&bytes, whole.token.scope.0));
        assert_eq!(read_whole(&bytes[..bytes.len() - 1]).err(), read(&bytes[..bytes.len() - 1]).err());
    }

    #[test]
    fn other_editions_and_what_is_none() {
        let front = write(&fields(0, b""))[..54].to_vec();
        for other in [&b"\x00"[..], b"\x02", b"\x18\x18", b"\x1b\xff\xff\xff\xff\xff\xff\xff\xff"] {
            assert_eq!(read(&[&front, other, b"\xff"].concat()), Err(unknown(54)), "{other:02x?}");
        }
        for none in [&b""[..], b"\x21", b"\x611", b"\x18\x01", b"\xf9\x3c\x00", b"\xf5", b"\x81\x01"] {
            assert_eq!(read(&[&front, none].concat()), Err(malformed(54)), "{none:02x?}");
        }
        assert_eq!(read(&[&front, &b"\x01"[..]].concat()), Err(malformed(55)));
        assert_eq!(read(&[&front, &b"\x01\x63tid"[..]].concat()), Err(malformed(55)));
    }

    #[test]
    fn tags_of_another_length_or_type() {
        for tag in [&[][..], &[7; 31], &[7; 33]] {
            assert_eq!(read(&write(&Fields { tag, ..fields(0, b"") })), Err(malformed(18)));
        }
    }
}
