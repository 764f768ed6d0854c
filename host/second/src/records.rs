//! House records, and what a record's body is made of: numbers with their lowest byte first, runs of
//! bytes, and texts behind their length.

use crate::cbor::Class;
use crate::cursor::Span;

/// How many bytes a body's length has, and a kind.
const WIDTH: usize = 2;

#[derive(Clone, Copy, Debug, PartialEq, Eq)]
pub struct Record<'a> {
    pub kind: u64,
    pub body: &'a [u8],
}

/// The record at the front, and what lies behind it; nothing where the record is cut.
pub fn first(s: &[u8]) -> Option<(Record<'_>, &[u8])> {
    let mut fields = Fields { s, at: 0 };
    let length = fields.number(WIDTH)?;
    let kind = fields.number(WIDTH)?;
    let (from, to) = fields.run(length as usize)?;
    Some((Record { kind, body: &s[from..to] }, &s[to..]))
}

/// A record as it is written. Of a body too long for its length the low bytes of that are told.
pub fn write(kind: u16, body: &[u8]) -> Vec<u8> {
    [&(body.len() as u16).to_le_bytes()[..], &kind.to_le_bytes(), body].concat()
}

/// A place that moves on behind each field that is read well.
pub(crate) struct Fields<'a> {
    pub s: &'a [u8],
    pub at: usize,
}

impl Fields<'_> {
    pub fn run(&mut self, length: usize) -> Option<Span> {
        let left = self.s.len() - self.at;
        let from = self.at;
        self.at += (length <= left).then_some(length)?;
        Some((from, self.at))
    }

    pub fn number(&mut self, width: usize) -> Option<u64> {
        let (from, to) = self.run(width)?;
        Some(self.s[from..to].iter().rev().fold(0, |number, &byte| number << 8 | u64::from(byte)))
    }

    /// Bytes of one class and of a fixed length.
    pub fn fixed(&mut self, class: Class, length: usize) -> Option<Span> {
        let (from, to) = self.run(length)?;
        class.admits(&self.s[from..to]).then_some((from, to))
    }

    /// A text of 1 to `most` bytes, behind its length in `width` bytes.
    pub fn text(&mut self, width: usize, class: Class, most: u64) -> Option<Span> {
        let length = self.number(width)?;
        if length == 0 || length > most {
            return None;
        }
        self.fixed(class, length as usize)
    }

    /// Nothing follows.
    pub fn end(&self) -> Option<()> {
        (self.at == self.s.len()).then_some(())
    }
}

#[cfg(test)]
mod tests {
    use super::*;

    #[test]
    fn both_numbers_have_their_lowest_byte_first() {
        let bundle = b"\x00\x00\x30\x00\x00\x00\x10\x00\x05";
        let (record, rest) = first(bundle).unwrap();
        assert_eq!(record, Record { kind: 48, body: b"" });
        let (record, rest) = first(rest).unwrap();
        assert_eq!(record, Record { kind: 16, body: b"" });
        assert_eq!(rest, b"\x05");
        assert_eq!(first(rest), None);
        assert_eq!(first(b"\x01\x00\x02\x01abc"), Some((Record { kind: 258, body: b"a" }, &b"bc"[..])));
    }

    #[test]
    fn records_that_are_cut() {
        let whole = write(0x1234, &[7; 258]);
        assert_eq!(whole[..5], [2, 1, 0x34, 0x12, 7]);
        assert_eq!(first(&whole), Some((Record { kind: 0x1234, body: &[7; 258] }, &b""[..])));
        for length in 0..whole.len() {
            assert_eq!(first(&whole[..length]), None, "{length}");
        }
        let longest = write(1, &[9; 65_535]);
        assert_eq!(first(&longest).map(|(record, _)| record.body.len()), Some(65_535));
    }

    #[test]
    fn fields_one_behind_the_other() {
        let mut fields = Fields { s: b"\x01\x02\x02abcd\x00", at: 0 };
        assert_eq!(fields.number(2), Some(0x0201));
        assert_eq!(fields.text(1, Class::Name, 2), Some((3, 5)));
        assert_eq!(fields.fixed(Class::Upper, 1), None);
        assert_eq!(fields.run(1), Some((6, 7)));
        assert_eq!(fields.end(), None);
        assert_eq!(fields.run(2), None);
        assert_eq!(fields.number(1), Some(0));
        assert_eq!(fields.end(), Some(()));
        assert_eq!(fields.run(usize::MAX), None);
    }

    #[test]
    fn texts_about_their_range() {
        for (length, good) in [(0, false), (1, true), (64, true), (65, false)] {
            let bytes = [&[length][..], &vec![b'a'; length.into()]].concat();
            let read = Fields { s: &bytes, at: 0 }.text(1, Class::Name, 64);
            assert_eq!(read.is_some(), good, "{length}");
        }
        assert_eq!(Fields { s: b"\x02\x00a", at: 0 }.text(2, Class::Name, 64), None);
    }
}
