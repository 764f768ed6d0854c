//! A fresh token, without caveats: a key table, ids and a scope in, a text into the room.

use crate::cbor::PARSE_CBOR;
use crate::room::{hand_out, Written};
use crate::token::Fields;
use crate::verify::{key_under, TABLE_BAD};
use crate::{base64url, chain, scope, table, token};

pub fn issue(table: &[u8], tid: &[u8], kid: &[u8], scope: &[u8], room: &mut [u8]) -> Written {
    hand_out(fresh(table, tid, kid, scope), room)
}

/// The text, or the first reason that there is none. Ids of a wrong form need no look of their own: no
/// good table has a row under them.
fn fresh(table: &[u8], tid: &[u8], kid: &[u8], scope: &[u8]) -> Result<Vec<u8>, u32> {
    let rows = table::read(table).ok_or(TABLE_BAD)?;
    let read = scope::read(scope, 0).map_err(|defect| defect.number)?;
    if read.next < scope.len() {
        return Err(PARSE_CBOR);
    }
    let key = key_under(&rows, tid, kid)?;
    let tag = chain::tag(key, tid, kid, scope, &[]);
    let fields = Fields { count: 0, caveats: b"", caveat: b"", scope, tag: &tag, kid, tid };
    Ok(base64url::encode(&token::write(&fields)))
}

#[cfg(test)]
mod tests {
    use super::*;
    use crate::room::{DONE, OUT_SHORT};
    use crate::table::Row;
    use crate::verify::KID_UNKNOWN;

    const KEY: &[u8; 32] = b"whats the Elvish word for friend";
    const SCOPE: &[u8] = b"\xa1\x67methods\x81\x63GET";

    fn rows() -> Vec<u8> {
        let row = |tid, kid| Row { tid, kid, key: KEY };
        table::write(&[row(&b"t"[..], &b"k"[..]), row(b"tenant-1", b"kid-2025-10")])
    }

    fn refused(table: &[u8], tid: &[u8], kid: &[u8], scope: &[u8]) -> u32 {
        let mut room = [7; 6000];
        let written = issue(table, tid, kid, scope, &mut room);
        assert_eq!((written.length, room), (0, [7; 6000]));
        written.answer
    }

    #[test]
    fn a_token_byte_by_byte() {
        // The tag is what b3sum says of "ron-auth/v1", a zero byte, "init", both ids and the scope.
        let tag = b"\xd4\xb9\x00\xbc\x76\x7e\x4c\xe6\x83\x64\x52\x1a\xc5\x74\xb5\x31\
            \x0a\xcf\x3b\x81\x0b\x5f\x15\x0f\x22\x30\x49\x9f\xea\x93\xbd\x87";
        let behind = b"\x61v\x01\x63kid\x6bkid-2025-10\x63tid\x68tenant-1";
        let parts: [&[u8]; 5] = [b"\xa6\x61c\x80\x61r", SCOPE, b"\x61s\x58\x20", tag, behind];
        let text = base64url::encode(&parts.concat());
        let mut room = vec![b'.'; text.len() + 3];
        let written = issue(&rows(), b"tenant-1", b"kid-2025-10", SCOPE, &mut room);
        assert_eq!(written, Written { answer: DONE, length: text.len() as u32 });
        assert_eq!(room, [&text[..], b"..."].concat());
    }

    #[test]
    fn room_that_is_enough_and_room_that_is_not() {
        let mut room = [b'.'; 200];
        let length = issue(&rows(), b"t", b"k", SCOPE, &mut room).length as usize;
        let text = room[..length].to_vec();
        let mut exact = vec![b'.'; length];
        assert_eq!(issue(&rows(), b"t", b"k", SCOPE, &mut exact).answer, DONE);
        assert_eq!(exact, text);
        for short in [0, 1, length - 1] {
            let mut room = vec![b'.'; short];
            let written = issue(&rows(), b"t", b"k", SCOPE, &mut room);
            assert_eq!((written, room), (Written { answer: OUT_SHORT, length: 0 }, vec![b'.'; short]));
        }
    }

    #[test]
    fn each_refusal_and_their_order() {
        let rows = rows();
        assert_eq!(refused(&rows[1..], b"", b"", b""), TABLE_BAD);
        assert_eq!(refused(&rows, b"", b"", b""), 4);
        assert_eq!(refused(&rows, b"t", b"k", &[SCOPE, b"\0"].concat()), 4);
        assert_eq!(refused(&rows, b"", b"", b"\xa1\x66prefix\x60"), 5);
        assert_eq!(refused(&rows, b"", b"", b"\xa4"), 6);
        assert_eq!(refused(&rows, b"t", b"", SCOPE), KID_UNKNOWN);
        assert_eq!(refused(&rows, &[b't'; 65], b"k", SCOPE), KID_UNKNOWN);
        assert_eq!(refused(&rows, b"k", b"t", SCOPE), KID_UNKNOWN);
        assert_eq!(refused(b"", b"t", b"k", SCOPE), KID_UNKNOWN);
        assert_eq!(issue(b"", b"t", b"k", SCOPE, &mut []).answer, KID_UNKNOWN);
    }

    #[test]
    fn the_longest_has_752_bytes() {
        let methods = [b"\x70", &[b'M'; 16][..]].concat().repeat(16);
        let prefix = [&b"\x66prefix\x79\x01\x00"[..], &b"/p".repeat(128)].concat();
        let scope =
            [b"\xa3", &prefix[..], b"\x67methods\x90", &methods, b"\x69max_bytes\x1b", &[255; 8]].concat();
        let id = [b'i'; 64];
        let rows = table::write(&[Row { tid: &id, kid: &id, key: KEY }]);
        let mut room = [0; 2000];
        let written = issue(&rows, &id, &id, &scope, &mut room);
        let bytes = base64url::decode(&room[..written.length as usize]).unwrap();
        assert_eq!((written.answer, bytes.len()), (DONE, 752));
    }
}
