//! Good key tables from a seed, and what is done to one row to make bad ones. Many ids begin alike, for
//! the order and the lookup are about that.

use std::collections::BTreeSet;

use second::{records, table};

use crate::strings;
use crate::Seeded;

/// Kinds that are not 1: the other house kinds, and such as are 1 in one byte or the wrong way round.
pub const KINDS: [u16; 10] = [0, 2, 16, 32, 48, 256, 257, 272, 4097, 65_535];

/// Lengths about the limits of an id and of the number that tells one.
const LENGTHS: [usize; 15] = [0, 1, 2, 31, 32, 33, 62, 63, 64, 65, 66, 127, 128, 255, 256];

/// Bytes beside the ranges of an id's characters, and such as are often taken for one.
const STRANGE: &[u8; 16] = b"\0\n ,/:@[^`{~\x7f\x80\xaa\xff";

#[derive(Clone, Debug, PartialEq, Eq)]
pub struct Row {
    pub tid: Vec<u8>,
    pub kid: Vec<u8>,
    pub key: Vec<u8>,
}

impl Row {
    pub fn new(tid: &[u8], kid: &[u8], seeded: &mut Seeded) -> Row {
        Row { tid: tid.to_vec(), kid: kid.to_vec(), key: key(seeded) }
    }

    pub fn body(&self) -> Vec<u8> {
        table::body(&self.lent())
    }

    pub fn record(&self) -> Vec<u8> {
        laid(std::slice::from_ref(self))
    }

    fn lent(&self) -> table::Row<'_> {
        table::Row { tid: &self.tid, kid: &self.kid, key: &self.key }
    }
}

/// A key of zeros is as good as any, and is not the same as none.
fn key(seeded: &mut Seeded) -> Vec<u8> {
    if seeded.below(8) == 0 { vec![0; 32] } else { seeded.bytes(32) }
}

/// The rows one behind the other, whatever they hold.
pub fn laid(rows: &[Row]) -> Vec<u8> {
    let rows: Vec<table::Row> = rows.iter().map(Row::lent).collect();
    table::write(&rows)
}

/// As many rows in order, no two under the same ids.
pub fn rows(count: usize, seeded: &mut Seeded) -> Vec<Row> {
    let mut ids = BTreeSet::new();
    while ids.len() < count {
        ids.insert((id(seeded), id(seeded)));
    }
    ids.iter().map(|(tid, kid)| Row::new(tid, kid, seeded)).collect()
}

/// Rows of a small table that is not empty.
pub fn few(seeded: &mut Seeded) -> Vec<Row> {
    let count = 1 + seeded.below(5);
    rows(count, seeded)
}

/// Any id; a short one of few characters; one that begins with all shorter ones of its kind; one that
/// differs from others of its kind in one byte only.
fn id(seeded: &mut Seeded) -> Vec<u8> {
    match seeded.below(4) {
        0 => strings::name(seeded),
        1 => {
            let length = 1 + seeded.below(3);
            strings::of(b"-.09AZ_az", length, seeded)
        }
        2 => vec![b'a'; 1 + seeded.below(64)],
        _ => {
            let mut id = vec![b'm'; 64];
            let at = [0, 31, 62, 63][seeded.below(4)];
            id[at] = strings::NAME[seeded.below(strings::NAME.len())];
            id
        }
    }
}

/// Shows `check` the table with each edit of each row, the other rows kept.
pub fn each(rows: &[Row], mut check: impl FnMut(&[u8])) {
    for (at, row) in rows.iter().enumerate() {
        let (front, behind) = (laid(&rows[..at]), laid(&rows[at + 1..]));
        for record in heads(row).into_iter().chain(bodies(row)) {
            check(&[&front[..], &record, &behind].concat());
        }
    }
}

/// The row's record with a kind, a body length, or an id's length that is not so.
fn heads(row: &Row) -> Vec<Vec<u8>> {
    let (good, body) = (row.record(), row.body());
    let mut edited: Vec<Vec<u8>> = KINDS.iter().map(|&kind| records::write(kind, &body)).collect();
    let length = body.len() as u16;
    let near = [-257, -256, -32, -4, -1, 1, 4, 32, 256, 257].map(|step| length.wrapping_add_signed(step));
    for told in near.into_iter().chain([0, 1, length.swap_bytes(), 65_535]) {
        edited.push([&told.to_le_bytes(), &good[2..]].concat());
    }
    for at in [4, 5 + row.tid.len()] {
        for step in 1..=255 {
            let mut record = good.clone();
            record[at] = record[at].wrapping_add(step);
            edited.push(record);
        }
    }
    edited
}

/// The row's record with other fields, and lengths that follow.
fn bodies(row: &Row) -> Vec<Vec<u8>> {
    let mut edited = vec![Row { tid: row.kid.clone(), kid: row.tid.clone(), ..row.clone() }];
    edited.extend(ids(&row.tid).into_iter().map(|tid| Row { tid, ..row.clone() }));
    edited.extend(ids(&row.kid).into_iter().map(|kid| Row { kid, ..row.clone() }));
    edited.extend(LENGTHS.map(|length| Row { key: row.key.repeat(8)[..length].to_vec(), ..row.clone() }));
    let mut records: Vec<Vec<u8>> = edited.iter().map(Row::record).collect();
    let body = row.body();
    // Each byte of the body missing in turn, and one more before each and behind the last.
    for at in 0..body.len() {
        records.push(records::write(1, &[&body[..at], &body[at + 1..]].concat()));
    }
    for at in 0..=body.len() {
        records.push(records::write(1, &[&body[..at], b"a", &body[at..]].concat()));
    }
    records
}

/// The id at every length about a limit, and with one byte that no id holds.
fn ids(id: &[u8]) -> Vec<Vec<u8>> {
    let source = if id.is_empty() { b"a" } else { id };
    let at_length = |length| source.iter().copied().cycle().take(length).collect();
    let mut ids: Vec<Vec<u8>> = LENGTHS.into_iter().map(at_length).collect();
    for at in [0, id.len() / 2, id.len() - 1] {
        for &byte in STRANGE {
            let mut id = id.to_vec();
            id[at] = byte;
            ids.push(id);
        }
    }
    ids
}

/// Ids near those of a row, and such as no row can have.
pub fn near(row: &Row, seeded: &mut Seeded) -> Vec<(Vec<u8>, Vec<u8>)> {
    let (tid, kid) = (&row.tid, &row.kid);
    let mut asked = vec![(kid.clone(), tid.clone()), (tid.clone(), tid.clone()), (kid.clone(), kid.clone())];
    asked.extend(neighbours(tid, seeded).into_iter().map(|tid| (tid, kid.clone())));
    asked.extend(neighbours(kid, seeded).into_iter().map(|kid| (tid.clone(), kid)));
    // Both ids as one string, parted elsewhere, with and without the length between them.
    let joined = [&tid[..], kid].concat();
    asked.extend((0..=joined.len()).map(|at| (joined[..at].to_vec(), joined[at..].to_vec())));
    asked.push((row.body(), vec![]));
    asked.push((row.body()[1..=tid.len() + 1].to_vec(), kid.clone()));
    asked.retain(|ids| (&ids.0, &ids.1) != (tid, kid));
    asked
}

fn neighbours(id: &[u8], seeded: &mut Seeded) -> Vec<Vec<u8>> {
    let mut all = vec![vec![], id[1..].to_vec(), id[..id.len() - 1].to_vec(), id.repeat(2)];
    for byte in *b"\0 -az" {
        all.push([id, &[byte]].concat());
        all.push([&[byte], id].concat());
    }
    for at in [0, id.len() / 2, id.len() - 1] {
        for mask in [1, 0x20, 0x80, 1 + seeded.below(255) as u8] {
            let mut changed = id.to_vec();
            changed[at] ^= mask;
            all.push(changed);
        }
    }
    // As long again where one byte or two would tell the length.
    for more in [256, 65_536] {
        all.push([id, &vec![b'a'; more]].concat());
    }
    all
}
