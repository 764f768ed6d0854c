//! A child: a token's text and one caveat in, the text of the token with that caveat behind its others
//! into the room. The parent is judged whole, its tag included, before a byte of the caveat is.

use crate::cbor::{PARSE_BOUNDS, PARSE_CBOR};
use crate::chain::official;
use crate::room::{hand_out, Written};
use crate::token::{Fields, CAVEATS};
use crate::verify::{genuine, TABLE_BAD};
use crate::{base64url, caveat, table, token};

pub const CAV_CBOR: u32 = 31;
pub const CAV_BOUNDS: u32 = 32;
pub const CAV_UNKNOWN: u32 = 33;
pub const CAV_FULL: u32 = 34;
pub const SIZE_FULL: u32 = 35;

/// How many bytes a token may have.
const BYTES: usize = 4096;

pub fn narrow(table: &[u8], token: &[u8], caveat: &[u8], room: &mut [u8]) -> Written {
    hand_out(child(table, token, caveat), room)
}

/// The child's text, or the first reason that there is none.
fn child(table: &[u8], text: &[u8], caveat: &[u8]) -> Result<Vec<u8>, u32> {
    let rows = table::read(table).ok_or(TABLE_BAD)?;
    let mut parent = genuine(official, &rows, text)?;
    one_caveat(caveat)?;
    let read = parent.whole.token;
    if read.caveats.count == CAVEATS {
        return Err(CAV_FULL);
    }
    parent.chain.narrow(caveat);
    let fields = Fields {
        count: read.caveats.count + 1,
        caveats: parent.part((read.caveats.from, read.caveats.to)),
        caveat,
        scope: parent.part(read.scope),
        tag: parent.chain.link(),
        kid: parent.part(read.kid),
        tid: parent.part(read.tid),
    };
    let bytes = token::write(&fields);
    if bytes.len() > BYTES {
        return Err(SIZE_FULL);
    }
    Ok(base64url::encode(&bytes))
}

/// The bytes are one caveat and nothing besides.
fn one_caveat(bytes: &[u8]) -> Result<(), u32> {
    match caveat::read(bytes, 0) {
        Ok(read) if read.next == bytes.len() => Ok(()),
        Ok(_) => Err(CAV_CBOR),
        Err(defect) => Err(match defect.number {
            PARSE_CBOR => CAV_CBOR,
            PARSE_BOUNDS => CAV_BOUNDS,
            _ => CAV_UNKNOWN,
        }),
    }
}

#[cfg(test)]
mod tests {
    use super::*;
    use crate::issue;
    use crate::room::{DONE, OUT_SHORT};
    use crate::table::Row;
    use crate::verify::{KID_UNKNOWN, MAC_MISMATCH, PARSE_B64};

    const KEY: &[u8; 32] = b"whats the Elvish word for friend";
    const SCOPE: &[u8] = b"\xa1\x67methods\x81\x63GET";
    const EXP: &[u8] = b"\xa2\x61t\x63exp\x61v\x1a\x69\x55\xb9\0";
    const AMNESIA: &[u8] = b"\xa2\x61t\x67amnesia\x61v\xf4";

    fn rows() -> Vec<u8> {
        table::write(&[Row { tid: b"tenant-1", kid: b"kid-2025-10", key: KEY }])
    }

    fn fresh() -> Vec<u8> {
        let mut room = vec![0; 6000];
        let written = issue(&rows(), b"tenant-1", b"kid-2025-10", SCOPE, &mut room);
        room.truncate(written.length as usize);
        room
    }

    fn narrowed(text: &[u8], caveat: &[u8]) -> Result<Vec<u8>, u32> {
        let mut room = vec![b'.'; 6000];
        let Written { answer, length } = narrow(&rows(), text, caveat, &mut room);
        assert!(room[length as usize..].iter().all(|&byte| byte == b'.'));
        room.truncate(length as usize);
        if answer == DONE { Ok(room) } else { Err(answer) }
    }

    /// A custom caveat of so many bytes in all, 300 or more.
    fn custom(length: usize) -> Vec<u8> {
        let front = b"\xa2\x61t\x66custom\x61v\xa3\x62ns\x61n\x64cbor\x59";
        let behind = b"\x64name\x61n";
        let held = length - front.len() - 2 - behind.len();
        [&front[..], &(held as u16).to_be_bytes(), &vec![0xff; held], behind].concat()
    }

    #[test]
    fn two_children_byte_by_byte() {
        // The tags are what b3sum says of the links.
        let tags: [&[u8; 32]; 2] = [
            b"\xc5\xd2\xb2\x4a\xe9\x4d\xf8\xf9\x43\xc9\xa0\x40\xd9\x7c\x50\xd3\
                \x89\xc9\x43\x18\x1d\x5e\x30\x00\x2e\xf1\x1a\xac\x28\x7f\x1d\x78",
            b"\xd1\x4d\xfa\xb7\x35\x5e\x29\x2d\x9f\xe4\x7a\xde\x53\x17\x84\x87\
                \xcd\x35\x42\xf3\x30\x80\x2e\x66\xf9\xba\x05\xab\x8a\xad\x33\xfc",
        ];
        let text = |head: &[u8], caveats: &[&[u8]], tag: &[u8; 32]| {
            let behind = b"\x61v\x01\x63kid\x6bkid-2025-10\x63tid\x68tenant-1";
            let parts =
                [b"\xa6\x61c", head, &caveats.concat(), b"\x61r", SCOPE, b"\x61s\x58\x20", tag, &behind[..]];
            base64url::encode(&parts.concat())
        };
        let first = narrowed(&fresh(), EXP).unwrap();
        assert_eq!(first, text(b"\x81", &[EXP], tags[0]));
        let second = narrowed(&first, AMNESIA).unwrap();
        assert_eq!(second, text(b"\x82", &[EXP, AMNESIA], tags[1]));
    }

    #[test]
    fn each_refusal_of_the_parent_comes_before_the_caveat() {
        let (rows, text) = (rows(), fresh());
        let answer = |table: &[u8], text: &[u8]| narrow(table, text, b"", &mut []).answer;
        assert_eq!(answer(&rows[1..], &[b'='; 5463]), TABLE_BAD);
        assert_eq!(answer(&rows, &[b'='; 5463]), PARSE_BOUNDS);
        assert_eq!(answer(&rows, &[b'='; 5462]), PARSE_B64);
        assert_eq!(answer(&rows, b""), PARSE_CBOR);
        assert_eq!(answer(&rows, b"pw"), 6);
        assert_eq!(answer(b"", &text), KID_UNKNOWN);
        let mut bytes = base64url::decode(&text).unwrap();
        let place = token::read(&bytes).unwrap().tag.1 - 1;
        bytes[place] ^= 1;
        assert_eq!(answer(&rows, &base64url::encode(&bytes)), MAC_MISMATCH);
        assert_eq!(answer(&rows, &text), CAV_CBOR);
    }

    #[test]
    fn caveats_that_are_none() {
        let text = fresh();
        let refused = |caveat: &[u8]| narrowed(&text, caveat).unwrap_err();
        assert_eq!(refused(b""), CAV_CBOR);
        assert_eq!(refused(&[EXP, b"\0"].concat()), CAV_CBOR);
        assert_eq!(refused(&[EXP, EXP].concat()), CAV_CBOR);
        assert_eq!(refused(&[b"\x81", EXP].concat()), CAV_CBOR);
        assert_eq!(refused(b"\xa2\x61t\x66tenant\x61v\x60"), CAV_BOUNDS);
        assert_eq!(refused(b"\xa2\x61t\x63exq"), CAV_UNKNOWN);
        assert_eq!(refused(b"\xa3"), CAV_UNKNOWN);
    }

    #[test]
    fn sixty_four_caveats_and_not_one_more() {
        let mut text = fresh();
        for count in 1..=64 {
            text = narrowed(&text, AMNESIA).unwrap();
            let bytes = base64url::decode(&text).unwrap();
            assert_eq!(token::read(&bytes).unwrap().caveats.count, count);
            assert_eq!(bytes[3], if count < 24 { 0x80 + count as u8 } else { 0x98 });
        }
        assert_eq!(narrowed(&text, AMNESIA), Err(CAV_FULL));
        assert_eq!(narrowed(&text, &custom(60_000)), Err(CAV_FULL));
        assert_eq!(narrowed(&text, b"\xa3"), Err(CAV_UNKNOWN));
    }

    #[test]
    fn a_child_of_4096_bytes_and_not_one_more() {
        let text = fresh();
        let held = base64url::decode(&text).unwrap().len();
        assert_eq!(narrowed(&text, &custom(4096 - held)).map(|child| child.len()), Ok(5462));
        assert_eq!(narrowed(&text, &custom(4097 - held)), Err(SIZE_FULL));
        assert_eq!(narrowed(&text, &custom(60_000)), Err(SIZE_FULL));
        assert_eq!(narrow(&rows(), &text, &custom(4097 - held), &mut []).answer, SIZE_FULL);
        assert_eq!(narrow(&rows(), &text, &custom(4096 - held), &mut [0; 5461]).answer, OUT_SHORT);
        assert_eq!(narrow(&rows(), &text, &custom(4096 - held), &mut [0; 5462]).answer, DONE);
    }

    #[test]
    fn the_head_that_grows_counts_in_the_size() {
        let mut text = fresh();
        for _ in 0..23 {
            text = narrowed(&text, AMNESIA).unwrap();
        }
        let held = base64url::decode(&text).unwrap().len();
        assert_eq!(narrowed(&text, &custom(4096 - held)), Err(SIZE_FULL));
        assert_eq!(narrowed(&text, &custom(4095 - held)).map(|child| child.len()), Ok(5462));
    }
}
