//! A token's scope: where it leads, by which methods, and how much may be sent. All places are those
//! of the bytes in which the scope lies.

use crate::cbor::{Class, Defect, UNSIGNED};
use crate::cursor::{optional, required, Cursor, Key, List, Map, Span};

const KEYS: [Key; 3] = [optional("prefix"), required("methods"), optional("max_bytes")];

/// What a scope says, and the place behind it.
#[derive(Clone, Copy, Debug, PartialEq, Eq)]
pub struct Scope {
    pub prefix: Option<Span>,
    pub methods: List,
    pub max_bytes: Option<u64>,
    pub next: usize,
}

pub fn read(s: &[u8], at: usize) -> Result<Scope, Defect> {
    read_on(&mut Cursor { s, at })
}

pub(crate) fn read_on(cursor: &mut Cursor) -> Result<Scope, Defect> {
    let mut map = Map::open(cursor, &KEYS)?;
    let prefix = map.may("prefix", path)?;
    let methods = map.must("methods", methods)?;
    let max_bytes = map.may("max_bytes", |cursor| cursor.number(UNSIGNED))?;
    Ok(Scope { prefix, methods, max_bytes, next: cursor.at })
}

/// A prefix, here or in a caveat.
pub(crate) fn path(cursor: &mut Cursor) -> Result<Span, Defect> {
    cursor.text(Class::Path, 1, 256)
}

/// A list of methods, here or in a caveat.
pub(crate) fn methods(cursor: &mut Cursor) -> Result<List, Defect> {
    cursor.list(16, |cursor| cursor.text(Class::Upper, 1, 16).map(drop))
}

#[cfg(test)]
mod tests {
    use super::*;
    use crate::cbor::{malformed, out_of_bounds, unknown};

    #[test]
    fn the_scope_of_document_01() {
        let scope = b"\xa1\x67methods\x81\x63GET";
        let methods = List { count: 1, from: 10, to: 14 };
        assert_eq!(read(scope, 0), Ok(Scope { prefix: None, methods, max_bytes: None, next: 14 }));
    }

    #[test]
    fn all_three_keys_and_none_that_may_be_absent() {
        let scope = b"..\xa3\x66prefix\x62/a\x67methods\x82\x61A\x61A\x69max_bytes\x18\x18..";
        let methods = List { count: 2, from: 22, to: 26 };
        let wanted = Scope { prefix: Some((11, 13)), methods, max_bytes: Some(24), next: 38 };
        assert_eq!(read(scope, 2), Ok(wanted));
        let methods = List { count: 0, from: 10, to: 10 };
        let wanted = Scope { prefix: None, methods, max_bytes: None, next: 10 };
        assert_eq!(read(b"\xa1\x67methods\x80", 0), Ok(wanted));
    }

    #[test]
    fn methods_missing() {
        assert_eq!(read(b"\xa1\x66prefix\x61/", 0), Err(malformed(0)));
        assert_eq!(read(b"\xa1\x66prefix\x60", 0), Err(out_of_bounds(8)));
        assert_eq!(read(b"\xa2\x66prefix\x61/\x69max_bytes\xff", 0), Err(malformed(10)));
        assert_eq!(read(b"\xa1\x63kid\x61a", 0), Err(unknown(1)));
    }

    #[test]
    fn seventeen_methods_and_one_too_long() {
        let head = b"\xa1\x67methods";
        assert_eq!(read(&[&head[..], &[0x91]].concat(), 0), Err(out_of_bounds(9)));
        assert_eq!(read(&[&head[..], &[0x90]].concat(), 0), Err(malformed(10)));
        assert_eq!(read(&[&head[..], b"\x82\x61G\x71"].concat(), 0), Err(out_of_bounds(12)));
        assert_eq!(read(&[&head[..], b"\x81\x63GEt"].concat(), 0), Err(malformed(11)));
    }
}
