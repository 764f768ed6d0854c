//! The judge of bundles: records in, one line for each token out.

use crate::names::name;
use crate::records;
use crate::verify::{verify, ALLOW};

/// How many bytes a bundle may have.
const LONGEST: usize = 65_536;

const TABLE: u64 = 16;
const REQUEST: u64 = 32;
const TOKEN: u64 = 48;

const BAD: &[u8] = b"bundle.bad\n";

/// What is printed for a bundle, up to the end or to where it is none any more.
pub fn lines(input: &[u8]) -> Vec<u8> {
    if input.len() > LONGEST {
        return BAD.to_vec();
    }
    // No table is a good one without rows; no bytes are no request, so that there is none before the first.
    let (mut table, mut request) = (&input[..0], &input[..0]);
    let mut lines = Vec::new();
    let mut rest = input;
    while !rest.is_empty() {
        let Some((record, behind)) = records::first(rest) else {
            lines.extend(BAD);
            break;
        };
        match record.kind {
            TABLE => table = record.body,
            REQUEST => request = record.body,
            TOKEN => lines.extend(line(verify(table, request, record.body)).into_bytes()),
            _ => {
                lines.extend(BAD);
                break;
            }
        }
        rest = behind;
    }
    lines
}

fn line(answer: u32) -> String {
    let name = name(answer).expect("verify answers with numbers of document 01");
    if answer == ALLOW { format!("{name}\n") } else { format!("deny {name}\n") }
}

#[cfg(test)]
mod tests {
    use super::*;
    use crate::records::write;
    use crate::request::{self, Fields};
    use crate::table::{self, Row};

    const KEY: &[u8; 32] = b"whats the Elvish word for friend";
    const SCOPE: &[u8] = b"\xa1\x67methods\x81\x63GET";

    fn rows(key: &[u8]) -> Vec<u8> {
        write(16, &table::write(&[Row { tid: b"t", kid: b"k", key }]))
    }

    fn asked(method: &[u8]) -> Vec<u8> {
        let fields = Fields {
            now: 0,
            body_size: 0,
            skew: 0,
            amnesia: false,
            peer: None,
            digest: None,
            rate: None,
            method,
            path: b"/",
            tenant: b"t",
            audience: None,
        };
        write(32, &request::write(&fields))
    }

    fn token() -> Vec<u8> {
        let table = table::write(&[Row { tid: b"t", kid: b"k", key: KEY }]);
        let mut room = [0; 1003];
        let written = crate::issue(&table, b"t", b"k", SCOPE, &mut room);
        write(48, &room[..written.length as usize])
    }

    fn printed(records: &[Vec<u8>]) -> String {
        String::from_utf8(lines(&records.concat())).unwrap()
    }

    #[test]
    fn document_01s_bundle() {
        assert_eq!(lines(b"\x00\x00\x30\x00\x00\x00\x10\x00\x05"), b"deny ctx.bad\nbundle.bad\n");
    }

    #[test]
    fn no_bytes_no_lines_and_no_token_no_line() {
        assert_eq!(lines(b""), b"");
        assert_eq!(printed(&[rows(KEY), asked(b"GET"), rows(b""), asked(b"")]), "");
    }

    #[test]
    fn later_tables_and_requests_replace_earlier_ones() {
        let bundle = [
            token(),
            rows(KEY),
            token(),
            asked(b"GET"),
            token(),
            asked(b"PUT"),
            token(),
            token(),
            rows(&[7; 32]),
            token(),
            asked(b"GET"),
            rows(KEY),
            token(),
        ];
        let wanted = "deny ctx.bad\ndeny ctx.bad\nallow\ndeny caveat.method\ndeny caveat.method\n\
            deny mac.mismatch\nallow\n";
        assert_eq!(printed(&bundle), wanted);
    }

    #[test]
    fn before_any_table_there_is_an_empty_one() {
        assert_eq!(printed(&[asked(b"GET"), token(), write(48, b"")]), "deny kid.unknown\ndeny parse.cbor\n");
    }

    #[test]
    fn a_bad_table_or_request_stays_until_it_is_replaced() {
        let bundle = [rows(KEY), asked(b"get"), token(), rows(b""), token(), token(), asked(b"GET"), token()];
        assert_eq!(printed(&bundle), "deny ctx.bad\n".to_owned() + &"deny table.bad\n".repeat(3));
        let again = [bundle.concat(), rows(KEY), token()];
        assert!(printed(&again).ends_with("deny table.bad\nallow\n"));
    }

    #[test]
    fn another_kind_ends_it() {
        for kind in [0, 1, 15, 17, 33, 47, 49, 256, 4096, 8192, 12_288, 272, 288, 304, 65_535] {
            let bundle = [rows(KEY), asked(b"GET"), token(), write(kind, b""), token()];
            assert_eq!(printed(&bundle), "allow\nbundle.bad\n", "{kind}");
        }
    }

    #[test]
    fn a_cut_record_ends_it_wherever_it_is_cut() {
        let front = [rows(KEY), asked(b"GET"), token()].concat();
        for last in [rows(KEY), asked(b"GET"), token(), write(48, b"")] {
            for length in 1..last.len() {
                assert_eq!(printed(&[front.clone(), last[..length].to_vec()]), "allow\nbundle.bad\n", "{length}");
            }
        }
    }

    #[test]
    fn a_longer_input_gives_one_line_whatever_it_holds() {
        let front = [rows(KEY), asked(b"GET"), token()].concat();
        let filled = |length: usize| write(16, &vec![0; length - front.len() - 4]);
        assert_eq!(printed(&[front.clone(), filled(65_536)]), "allow\n");
        assert_eq!(printed(&[front.clone(), filled(65_537)]), "bundle.bad\n");
        assert_eq!(lines(&[0; 65_537]), BAD);
        assert_eq!(lines(&b"\0\0\x30\0".repeat(16_384)), b"deny ctx.bad\n".repeat(16_384));
        assert_eq!(lines(&b"\0\0\x30\0".repeat(16_385)), BAD);
    }

    #[test]
    fn a_newline_behind_a_token_is_part_of_its_text() {
        let text = &token()[4..];
        let bundle = [rows(KEY), asked(b"GET"), write(48, &[text, b"\n"].concat()), write(48, text)];
        assert_eq!(printed(&bundle), "deny parse.b64\nallow\n");
    }
}
