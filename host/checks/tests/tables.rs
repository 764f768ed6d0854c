//! Key tables: the proved reader beside the second program's. What is made good or bad on purpose is
//! held to that as well, so that a slip which both readers share shows too.

use checks::beside::{Beside, Outcomes};
use checks::edits::{changes, cuts, spoiled};
use checks::inputs::hex;
use checks::strings::{self, NAME};
use checks::tables::{self, few, laid, Row, KINDS};
use checks::Seeded;
use second::records;
use second::table::read;

/// What each test meets at least: how much, and how much of that is taken, and how much is not.
const GOOD: Outcomes = (16_000, 8000, 8000);
const COUNTS: Outcomes = (395, 325, 70);
const PAIRS: Outcomes = (38_416, 19_110, 19_306);
const ORDERS: Outcomes = (37_000, 3300, 33_000);
const DAMAGED: Outcomes = (250_000, 4700, 240_000);
const EDITED: Outcomes = (300_000, 84_000, 210_000);
const OF_KINDS: Outcomes = (66_946, 1, 66_945);
const LENGTHS: Outcomes = (67_160, 195, 66_965);
const CHARACTERS: Outcomes = (8192, 2462, 5730);
const TWO_WAYS: Outcomes = (18_000, 11_000, 6700);
const BEGIN: Outcomes = (24_576, 6240, 18_336);
const RANDOM: Outcomes = (90_000, 30_000, 59_000);

/// The inputs from a seed together; what is gone through exhaustively comes on top.
const _: () = assert!(GOOD.0 + ORDERS.0 + DAMAGED.0 + EDITED.0 + TWO_WAYS.0 + RANDOM.0 >= 710_000);

fn take(beside: &mut Beside, table: &[u8]) {
    assert!(read(table).is_some(), "{}", hex(table));
    beside.table(table);
}

fn refuse(beside: &mut Beside, table: &[u8]) {
    assert!(read(table).is_none(), "{}", hex(table));
    beside.table(table);
}

fn judge(beside: &mut Beside, table: &[u8], good: bool) {
    if good { take(beside, table) } else { refuse(beside, table) }
}

#[test]
fn good_ones_and_bytes_behind() {
    let mut seeded = Seeded(120);
    let mut beside = Beside::default();
    for turn in 0..8000 {
        let rows = if turn % 16 == 0 { tables::rows(turn / 16 % 65, &mut seeded) } else { few(&mut seeded) };
        let table = laid(&rows);
        take(&mut beside, &table);
        let same = read(&table).unwrap().iter().zip(&rows).all(|(read, row)| {
            (read.tid, read.kid, read.key) == (&row.tid[..], &row.kid[..], &row.key[..])
        });
        assert!(same && read(&table).map(|rows| rows.len()) == Some(rows.len()));
        // Fewer bytes than the shortest row has.
        let more = 1 + seeded.below(38);
        refuse(&mut beside, &[table, seeded.bytes(more)].concat());
    }
    beside.judged(GOOD);
}

#[test]
fn every_count_of_rows() {
    let mut seeded = Seeded(121);
    let mut beside = Beside::default();
    for count in (0..=70).chain([127, 128, 129, 255, 256, 257, 320, 1000]) {
        for _ in 0..4 {
            let rows = tables::rows(count, &mut seeded);
            judge(&mut beside, &laid(&rows), count <= 64);
        }
        let short: Vec<Row> =
            (0..count).map(|at| Row::new(b"a", format!("{at:04}").as_bytes(), &mut seeded)).collect();
        judge(&mut beside, &laid(&short), count <= 64);
    }
    beside.judged(COUNTS);
}

/// Ids of which some begin others, of characters that stand in another order by letter than by byte.
const IDS: [&str; 14] = ["-", ".", "0", "9", "A", "AA", "AB", "B", "_", "a", "a-", "aa", "aaa", "z"];

/// Document 01's order in its own words.
fn before(x: &[u8], y: &[u8]) -> bool {
    match x.iter().zip(y).find(|(x, y)| x != y) {
        Some((x, y)) => x < y,
        None => x.len() < y.len(),
    }
}

#[test]
fn every_two_rows_of_few_ids() {
    let mut seeded = Seeded(122);
    let mut beside = Beside::default();
    let ids: Vec<Row> = IDS
        .iter()
        .flat_map(|tid| IDS.iter().map(move |kid| (tid, kid)))
        .map(|(tid, kid)| Row::new(tid.as_bytes(), kid.as_bytes(), &mut seeded))
        .collect();
    for first in &ids {
        for second in &ids {
            let ascend = before(&first.tid, &second.tid)
                || first.tid == second.tid && before(&first.kid, &second.kid);
            judge(&mut beside, &[first.record(), second.record()].concat(), ascend);
        }
    }
    beside.judged(PAIRS);
}

#[test]
fn rows_changed_over_and_repeated() {
    let mut seeded = Seeded(123);
    let mut beside = Beside::default();
    for turn in 0..600 {
        let count = if turn % 20 == 0 { 64 } else { 2 + seeded.below(6) };
        let rows = tables::rows(count, &mut seeded);
        take(&mut beside, &laid(&rows));
        for at in 0..count.min(8) {
            let other = (at + 1 + seeded.below(count - 1)) % count;
            let mut swapped = rows.clone();
            swapped.swap(at, other);
            refuse(&mut beside, &laid(&swapped));
            let mut fewer = rows.clone();
            let row = fewer.remove(at);
            take(&mut beside, &laid(&fewer));
            fewer.insert(other, row.clone());
            refuse(&mut beside, &laid(&fewer));
            // The same ids once more, with the same key and with another, near and far.
            let again = Row::new(&row.tid, &row.kid, &mut seeded);
            for (place, twice) in [(at, &row), (at, &again), (at + 1, &again), (other, &row), (count, &again)] {
                let mut more = rows.clone();
                more.insert(place, twice.clone());
                refuse(&mut beside, &laid(&more));
                more.remove(if place <= other { other + 1 } else { other });
                beside.table(&laid(&more));
            }
        }
        let reversed: Vec<Row> = rows.into_iter().rev().collect();
        refuse(&mut beside, &laid(&reversed));
    }
    beside.judged(ORDERS);
}

#[test]
fn every_edit_of_every_row() {
    let mut seeded = Seeded(124);
    let mut beside = Beside::default();
    for turn in 0..80 {
        let rows = match turn {
            0 => tables::rows(64, &mut seeded),
            _ => few(&mut seeded),
        };
        take(&mut beside, &laid(&rows));
        tables::each(&rows, |edited| beside.table(edited));
    }
    beside.judged(DAMAGED);
}

#[test]
fn cut_at_every_byte_and_each_byte_changed() {
    let mut seeded = Seeded(125);
    let mut beside = Beside::default();
    for _ in 0..200 {
        let rows = few(&mut seeded);
        let table = laid(&rows);
        let ends: Vec<usize> = (0..rows.len()).map(|count| laid(&rows[..count]).len()).collect();
        for cut in cuts(&table) {
            judge(&mut beside, cut, ends.contains(&cut.len()));
            judge(&mut beside, &table[cut.len()..], ends.contains(&cut.len()));
        }
        changes(&table, &mut seeded, |changed| beside.table(changed));
        for _ in 0..60 {
            beside.table(&spoiled(&table, &mut seeded));
        }
    }
    beside.judged(EDITED);
}

#[test]
fn every_kind_and_other_kinds_in_each_row() {
    let mut seeded = Seeded(126);
    let mut beside = Beside::default();
    let body = Row::new(b"t", b"k", &mut seeded).body();
    for kind in 0..=65_535 {
        judge(&mut beside, &records::write(kind, &body), kind == 1);
    }
    for kind in KINDS {
        // Not even without a body, which a reader might pass over.
        refuse(&mut beside, &records::write(kind, b""));
        for count in [1, 2, 3, 64] {
            let rows = tables::rows(count, &mut seeded);
            for at in 0..count {
                let record = records::write(kind, &rows[at].body());
                refuse(&mut beside, &[laid(&rows[..at]), record.clone(), laid(&rows[at + 1..])].concat());
                refuse(&mut beside, &[laid(&rows[..at]), record, laid(&rows[at..])].concat());
            }
        }
    }
    beside.judged(OF_KINDS);
}

#[test]
fn every_length_told_and_met() {
    let mut seeded = Seeded(127);
    let mut beside = Beside::default();
    for length in (0..=300).chain([511, 512, 65_000, 65_535, 65_536]) {
        let id = vec![b'i'; length];
        let good = (1..=64).contains(&length);
        judge(&mut beside, &Row::new(&id, b"k", &mut seeded).record(), good);
        judge(&mut beside, &Row::new(b"t", &id, &mut seeded).record(), good);
        judge(&mut beside, &Row::new(&id, &id, &mut seeded).record(), good);
        let row = Row { key: seeded.bytes(length), ..Row::new(b"t", b"k", &mut seeded) };
        judge(&mut beside, &row.record(), length == 32);
    }
    let rows = tables::rows(3, &mut seeded);
    let (front, good, behind) = (rows[0].record(), rows[1].record(), rows[2].record());
    for told in 0..=65_535u16 {
        let record = [&told.to_le_bytes(), &good[2..]].concat();
        judge(&mut beside, &record, usize::from(told) == good.len() - 4);
        if told < 400 {
            let table = [&front[..], &record, &behind].concat();
            judge(&mut beside, &table, usize::from(told) == good.len() - 4);
        }
    }
    beside.judged(LENGTHS);
}

#[test]
fn every_byte_in_an_id_and_in_a_key() {
    let mut seeded = Seeded(128);
    let mut beside = Beside::default();
    for length in [1, 2, 3, 63, 64] {
        for at in [0, length / 2, length - 1] {
            for byte in 0..=255 {
                let mut id = vec![b'x'; length];
                id[at] = byte;
                let good = NAME.contains(&byte);
                judge(&mut beside, &Row::new(&id, b"k", &mut seeded).record(), good);
                judge(&mut beside, &Row::new(b"t", &id, &mut seeded).record(), good);
            }
        }
    }
    for byte in 0..=255 {
        let row = Row { key: vec![byte; 32], ..Row::new(b"t", b"k", &mut seeded) };
        take(&mut beside, &row.record());
        beside.lookup(&row.record(), b"t", b"k");
    }
    beside.judged(CHARACTERS);
}

/// A row which, told another length of its tid, is another good row: a character of its tid is the
/// length of a longer kid then, and its kid's length a character of that. And that other row.
fn two_ways(seeded: &mut Seeded) -> Option<(Row, Row)> {
    let digit = b"-.0123456789";
    let (old, new) = (digit[seeded.below(12)], digit[seeded.below(12)]);
    let shorter = 1 + seeded.below(12);
    let length = (shorter + usize::from(new)).checked_sub(usize::from(old))?;
    if length <= shorter || length > 64 {
        return None;
    }
    let mut tid = strings::of(NAME, length, seeded);
    tid[shorter] = new;
    let kid = strings::of(NAME, old.into(), seeded);
    let row = Row::new(&tid, &kid, seeded);
    let longer = [&tid[shorter + 1..], &[old], &kid].concat();
    Some((row.clone(), Row { tid: tid[..shorter].to_vec(), kid: longer, ..row }))
}

#[test]
fn rows_that_another_length_reads_well() {
    let mut seeded = Seeded(129);
    let mut beside = Beside::default();
    for _ in 0..5000 {
        let Some((row, other)) = two_ways(&mut seeded) else { continue };
        let mut record = row.record();
        record[4] = other.tid.len() as u8;
        assert_eq!(record, other.record());
        take(&mut beside, &row.record());
        take(&mut beside, &record);
        for ids in [&row, &other] {
            beside.lookup(&record, &ids.tid, &ids.kid);
            beside.lookup(&row.record(), &ids.tid, &ids.kid);
        }
        // The shorter tid begins the longer one.
        take(&mut beside, &[other.record(), row.record()].concat());
        refuse(&mut beside, &[row.record(), other.record()].concat());
    }
    beside.judged(TWO_WAYS);
}

#[test]
fn ids_that_begin_others_and_one_string_parted_elsewhere() {
    let mut seeded = Seeded(134);
    let mut beside = Beside::default();
    let name = strings::of(NAME, 65, &mut seeded);
    let row = |tid: &[u8], kid: &[u8]| Row { tid: tid.to_vec(), kid: kid.to_vec(), key: vec![7; 32] };
    for first in 1..=64 {
        for second in 1..=64 {
            // What comes first by tid comes last by kid.
            let by_tid = [row(&name[..first], &name[..second]), row(&name[..second], &name[..first])];
            let by_kid = [row(b"t", &name[..first]), row(b"t", &name[..second])];
            let parted = [first, second].map(|at| row(&name[..at], &name[at..]));
            for two in [by_tid, by_kid, parted] {
                judge(&mut beside, &laid(&two), first < second);
                beside.lookup(&laid(&two[..1]), &two[1].tid, &two[1].kid);
            }
        }
    }
    beside.judged(BEGIN);
}

#[test]
fn random_bytes_behind_a_good_front() {
    let mut seeded = Seeded(133);
    let mut beside = Beside::default();
    for _ in 0..30_000 {
        let length = seeded.below(60);
        let noise = seeded.bytes(length);
        beside.table(&noise);
        let table = laid(&few(&mut seeded));
        let front = &table[..seeded.below(table.len())];
        beside.table(&[front, &noise].concat());
        // In a key any bytes are good.
        let from = table.len() - 32 + length % 32;
        take(&mut beside, &[&table[..from], &seeded.bytes(table.len() - from)].concat());
    }
    beside.judged(RANDOM);
}
