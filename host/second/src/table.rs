//! The key table: rows in one strict order, each a tid, a kid and 32 key bytes. The whole table is
//! judged before any row of it counts.

use crate::cbor::Class;
use crate::records::{self, Fields, Record};

const KIND: u16 = 1;
const ROWS: usize = 64;
const ID: u64 = 64;
const KEY: usize = 32;

/// One row. What is only written may hold ids and a key of any length.
#[derive(Clone, Copy, Debug, PartialEq, Eq)]
pub struct Row<'a> {
    pub tid: &'a [u8],
    pub kid: &'a [u8],
    pub key: &'a [u8],
}

impl<'a> Row<'a> {
    /// What rows are ordered by. Pairs, and byte strings in them, compare as document 01 orders them.
    fn ids(&self) -> (&'a [u8], &'a [u8]) {
        (self.tid, self.kid)
    }
}

/// The rows of a good table; nothing where the table is bad.
pub fn read(s: &[u8]) -> Option<Vec<Row<'_>>> {
    let mut rows = Vec::with_capacity(ROWS);
    let mut rest = s;
    while !rest.is_empty() {
        let (record, behind) = records::first(rest)?;
        rows.push(row(&record)?);
        rest = behind;
    }
    let ascending = rows.windows(2).all(|two| two[0].ids() < two[1].ids());
    (ascending && rows.len() <= ROWS).then_some(rows)
}

fn row<'a>(record: &Record<'a>) -> Option<Row<'a>> {
    if record.kind != u64::from(KIND) {
        return None;
    }
    let mut fields = Fields { s: record.body, at: 0 };
    let tid = fields.text(1, Class::Name, ID)?;
    let kid = fields.text(1, Class::Name, ID)?;
    let key = fields.run(KEY)?;
    fields.end()?;
    let part = |(from, to): (usize, usize)| &record.body[from..to];
    Some(Row { tid: part(tid), kid: part(kid), key: part(key) })
}

/// The key under both ids; nothing where the table is bad or has no such row.
pub fn lookup<'a>(table: &'a [u8], tid: &[u8], kid: &[u8]) -> Option<&'a [u8]> {
    find(&read(table)?, tid, kid)
}

/// The key under both ids among the rows of a good table.
pub fn find<'a>(rows: &[Row<'a>], tid: &[u8], kid: &[u8]) -> Option<&'a [u8]> {
    rows.iter().find(|row| row.ids() == (tid, kid)).map(|row| row.key)
}

/// The rows as they are given, in order or not.
pub fn write(rows: &[Row]) -> Vec<u8> {
    rows.iter().flat_map(|row| records::write(KIND, &body(row))).collect()
}

/// A row's body. Of an id too long for its length the low byte of that is told.
pub fn body(row: &Row) -> Vec<u8> {
    [&[row.tid.len() as u8], row.tid, &[row.kid.len() as u8], row.kid, row.key].concat()
}

#[cfg(test)]
mod tests {
    use super::*;

    fn row<'a>(tid: &'a str, kid: &'a str) -> Row<'a> {
        Row { tid: tid.as_bytes(), kid: kid.as_bytes(), key: &[7; 32] }
    }

    fn good(rows: &[Row]) -> bool {
        read(&write(rows)).is_some_and(|read| read == rows)
    }

    #[test]
    fn a_row_byte_by_byte() {
        let table = [&b"\x26\x00\x01\x00\x01a\x03k.1"[..], &[7; 32]].concat();
        assert_eq!(write(&[row("a", "k.1")]), table);
        assert_eq!(read(&table), Some(vec![row("a", "k.1")]));
        assert_eq!(read(b""), Some(vec![]));
        for length in 1..table.len() {
            assert_eq!(read(&table[..length]), None, "{length}");
        }
    }

    #[test]
    fn rows_ascend_by_tid_then_by_kid() {
        assert!(good(&[row("a", "b"), row("a", "c"), row("aa", "a"), row("b", "a")]));
        assert!(good(&[row("-", "z"), row(".", "z"), row("0", "z"), row("A", "z"), row("_", "z"), row("a", "z")]));
        assert!(good(&[row("a", "bc"), row("ab", "a"), row("ab", "c")]));
        assert!(!good(&[row("a", "b"), row("a", "b")]));
        assert!(!good(&[row("a", "bb"), row("a", "b")]));
        assert!(!good(&[row("aa", "a"), row("a", "b")]));
        assert!(!good(&[row("b", "a"), row("aa", "a")]));
        assert!(!good(&[row("ab", "c"), row("a", "bc")]));
    }

    #[test]
    fn as_many_rows_as_a_table_holds() {
        let names: Vec<String> = (100..165).map(|number| number.to_string()).collect();
        let rows: Vec<Row> = names.iter().map(|name| row(name, "k")).collect();
        assert!(good(&rows[..64]));
        assert!(!good(&rows));
    }

    #[test]
    fn bodies_are_exact_and_ids_of_their_form() {
        let long = "x".repeat(65);
        assert!(good(&[row(&long[1..], &long[1..])]));
        for bad in ["", &long, "a b", "a/", "\u{e9}"] {
            assert!(!good(&[row(bad, "k")]) && !good(&[row("t", bad)]), "{bad}");
        }
        for key in [&[][..], &[7; 31], &[7; 33]] {
            assert!(!good(&[Row { key, ..row("t", "k") }]));
        }
        for kind in [0, 2, 256, 257, 272] {
            assert_eq!(read(&records::write(kind, &body(&row("t", "k")))), None, "{kind}");
        }
    }

    #[test]
    fn a_row_is_found_in_a_good_table_only() {
        let other = Row { key: &[0; 32], ..row("a", "c") };
        let mut table = write(&[row("a", "b"), other]);
        assert_eq!(lookup(&table, b"a", b"b"), Some(&[7; 32][..]));
        assert_eq!(lookup(&table, b"a", b"c"), Some(&[0; 32][..]));
        assert_eq!(lookup(&table, b"b", b"a"), None);
        assert_eq!(lookup(&table, b"", b"ab"), None);
        table.push(0);
        assert_eq!(lookup(&table, b"a", b"b"), None);
        assert_eq!(lookup(b"", b"a", b"b"), None);
    }
}
