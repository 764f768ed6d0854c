//! The request body, in document 01's order: the parts between the flags and the method do not stand
//! in the order of their bits. All places count from the body's first byte.

use crate::cbor::Class;
use crate::cursor::Span;
use crate::records;

const SKEW: u64 = 300;

const AMNESIA: u64 = 1;
const PEER: u64 = 2;
const AUDIENCE: u64 = 4;
const DIGEST: u64 = 8;
const RATE: u64 = 16;
const FLAGS: u64 = AMNESIA | PEER | AUDIENCE | DIGEST | RATE;

#[derive(Clone, Copy, Debug, PartialEq, Eq)]
pub struct Rate {
    pub per_s: u32,
    pub burst: u32,
}

/// What a request says, and where its parts lie.
#[derive(Clone, Copy, Debug, PartialEq, Eq)]
pub struct Request {
    pub now: u64,
    pub body_size: u64,
    pub skew: u64,
    pub amnesia: bool,
    pub peer: Option<Span>,
    pub digest: Option<Span>,
    pub rate: Option<Rate>,
    pub method: Span,
    pub path: Span,
    pub tenant: Span,
    pub audience: Option<Span>,
}

/// Nothing where the request is malformed.
pub fn read(s: &[u8]) -> Option<Request> {
    let mut fields = records::Fields { s, at: 0 };
    let now = fields.number(8)?;
    let body_size = fields.number(8)?;
    let skew = fields.number(2)?;
    let flags = fields.number(1)?;
    if skew > SKEW || flags & !FLAGS != 0 {
        return None;
    }
    let flagged = |flag| flags & flag != 0;
    let peer = only_if(flagged(PEER), || fields.run(4))?;
    let digest = only_if(flagged(DIGEST), || fields.fixed(Class::Hex, 64))?;
    let rate = only_if(flagged(RATE), || rate(&mut fields))?;
    let method = fields.text(2, Class::Upper, 16)?;
    let path = fields.text(2, Class::Path, 1024)?;
    let tenant = fields.text(2, Class::Name, 64)?;
    let audience = only_if(flagged(AUDIENCE), || fields.text(2, Class::Printable, 128))?;
    fields.end()?;
    let amnesia = flagged(AMNESIA);
    Some(Request { now, body_size, skew, amnesia, peer, digest, rate, method, path, tenant, audience })
}

/// A part that is there and good, or one that is not there; nothing where it is there and bad.
fn only_if<T>(there: bool, read: impl FnOnce() -> Option<T>) -> Option<Option<T>> {
    if there { read().map(Some) } else { Some(None) }
}

fn rate(fields: &mut records::Fields) -> Option<Rate> {
    let per_s = fields.number(4)? as u32;
    let burst = fields.number(4)? as u32;
    Some(Rate { per_s, burst })
}

/// What a request is written from, good or not.
#[derive(Clone, Copy, Debug)]
pub struct Fields<'a> {
    pub now: u64,
    pub body_size: u64,
    pub skew: u16,
    pub amnesia: bool,
    pub peer: Option<[u8; 4]>,
    pub digest: Option<&'a [u8]>,
    pub rate: Option<Rate>,
    pub method: &'a [u8],
    pub path: &'a [u8],
    pub tenant: &'a [u8],
    pub audience: Option<&'a [u8]>,
}

impl Fields<'_> {
    /// The byte that says which parts are there.
    pub fn flags(&self) -> u8 {
        let stated = [
            (AMNESIA, self.amnesia),
            (PEER, self.peer.is_some()),
            (AUDIENCE, self.audience.is_some()),
            (DIGEST, self.digest.is_some()),
            (RATE, self.rate.is_some()),
        ];
        stated.iter().filter(|(_, there)| *there).map(|(flag, _)| *flag as u8).sum()
    }
}

pub fn write(fields: &Fields) -> Vec<u8> {
    pieces(fields).concat()
}

/// The request in pieces, each one number, one part or one text; a text's length is a piece of its own.
/// Of a text too long for its length the low bytes of that are told.
pub fn pieces(fields: &Fields) -> Vec<Vec<u8>> {
    let mut pieces = vec![
        fields.now.to_le_bytes().to_vec(),
        fields.body_size.to_le_bytes().to_vec(),
        fields.skew.to_le_bytes().to_vec(),
        vec![fields.flags()],
    ];
    pieces.extend(fields.peer.map(Vec::from));
    pieces.extend(fields.digest.map(Vec::from));
    let numbers = fields.rate.iter().flat_map(|rate| [rate.per_s, rate.burst]);
    pieces.extend(numbers.map(|number| number.to_le_bytes().to_vec()));
    for text in [fields.method, fields.path, fields.tenant].into_iter().chain(fields.audience) {
        pieces.extend([(text.len() as u16).to_le_bytes().to_vec(), text.to_vec()]);
    }
    pieces
}

#[cfg(test)]
mod tests {
    use super::*;

    const DIGITS: &[u8; 64] = b"0123456789abcdef0123456789abcdef0123456789abcdef0123456789abcdef";

    fn least() -> Fields<'static> {
        Fields {
            now: 0x0807_0605_0403_0201,
            body_size: 258,
            skew: 300,
            amnesia: false,
            peer: None,
            digest: None,
            rate: None,
            method: b"GET",
            path: b"/",
            tenant: b"t.1",
            audience: None,
        }
    }

    fn whole() -> Fields<'static> {
        let rate = Some(Rate { per_s: 0x0403_0201, burst: 5 });
        let (peer, digest) = (Some([10, 0, 0, 1]), Some(&DIGITS[..]));
        Fields { amnesia: true, peer, digest, rate, audience: Some(b"!~"), ..least() }
    }

    #[test]
    fn the_least_request_byte_by_byte() {
        let numbers = b"\x01\x02\x03\x04\x05\x06\x07\x08\x02\x01\0\0\0\0\0\0\x2c\x01\0";
        let bytes = [&numbers[..], b"\x03\0GET\x01\0/\x03\0t.1"].concat();
        assert_eq!(write(&least()), bytes);
        let wanted = Request {
            now: 0x0807_0605_0403_0201,
            body_size: 258,
            skew: 300,
            amnesia: false,
            peer: None,
            digest: None,
            rate: None,
            method: (21, 24),
            path: (26, 27),
            tenant: (29, 32),
            audience: None,
        };
        assert_eq!(read(&bytes), Some(wanted));
    }

    #[test]
    fn the_parts_stand_in_the_order_of_the_paper() {
        let parts = [&b"\x0a\0\0\x01"[..], DIGITS, b"\x01\x02\x03\x04\x05\0\0\0"].concat();
        let bytes = write(&whole());
        assert_eq!(bytes[18], 0x1f);
        assert_eq!(bytes[19..95], parts);
        assert_eq!(bytes[95..], *b"\x03\0GET\x01\0/\x03\0t.1\x02\0!~");
        let request = read(&bytes).unwrap();
        assert_eq!(request.peer, Some((19, 23)));
        assert_eq!(request.digest, Some((23, 87)));
        assert_eq!(request.rate, Some(Rate { per_s: 0x0403_0201, burst: 5 }));
        assert_eq!((request.method, request.path, request.tenant), ((97, 100), (102, 103), (105, 108)));
        assert_eq!(request.audience, Some((110, 112)));
        assert!(request.amnesia);
    }

    #[test]
    fn cut_and_with_a_byte_behind() {
        for fields in [least(), whole()] {
            let bytes = write(&fields);
            for length in 0..bytes.len() {
                assert_eq!(read(&bytes[..length]), None, "{length}");
            }
            assert_eq!(read(&[&bytes[..], b"a"].concat()), None);
        }
    }

    #[test]
    fn flags_and_parts_go_together() {
        for fields in [least(), whole()] {
            let mut bytes = write(&fields);
            for flags in 0..=255 {
                bytes[18] = flags;
                // Amnesia alone has no part.
                let good = flags | 1 == fields.flags() | 1;
                assert_eq!(read(&bytes).is_some(), good, "{flags:02x}");
            }
        }
    }

    #[test]
    fn what_each_field_refuses() {
        let long: Vec<u8> = b"p/".iter().copied().cycle().take(1025).collect();
        let over = [b"/", &long[..1024]].concat();
        let bad = [
            Fields { skew: 301, ..least() },
            Fields { skew: 0x2c00, ..least() },
            Fields { method: b"", ..least() },
            Fields { method: b"GEt", ..least() },
            Fields { method: &[b'G'; 17], ..least() },
            Fields { path: b"", ..least() },
            Fields { path: b"a", ..least() },
            Fields { path: b"/ ", ..least() },
            Fields { path: b"/%", ..least() },
            Fields { path: b"/a//", ..least() },
            Fields { path: b"/a/../b", ..least() },
            Fields { path: &over, ..least() },
            Fields { tenant: b"", ..least() },
            Fields { tenant: b"/", ..least() },
            Fields { tenant: &[b't'; 65], ..least() },
            Fields { audience: Some(b""), ..least() },
            Fields { audience: Some(b"\x7f"), ..least() },
            Fields { audience: Some(&long[..129]), ..least() },
            Fields { digest: Some(&DIGITS[1..]), ..least() },
            Fields { digest: Some(&[b'F'; 64]), ..least() },
        ];
        for fields in bad {
            assert_eq!(read(&write(&fields)), None, "{fields:?}");
        }
        assert!(read(&write(&Fields { path: &long[1..], ..least() })).is_some());
    }
}
