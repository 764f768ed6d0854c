//! Lookups in key tables: the proved one beside the second program's. What is made to be found or not
//! is held to that as well, so that a slip which both share shows too.

use checks::beside::{Beside, Outcomes};
use checks::edits::{changes, cuts};
use checks::tables::{self, few, laid, near, Row};
use checks::Seeded;
use second::records;
use second::table::lookup;

/// What each test meets at least: how much, and how much of that is found, and how much is not.
const FOUND: Outcomes = (129_000, 5200, 123_000);
const IN_BAD: Outcomes = (12_000, 1500, 10_500);
const IN_EDITED: Outcomes = (39_000, 4200, 35_000);

/// All are from a seed.
const _: () = assert!(FOUND.0 + IN_BAD.0 + IN_EDITED.0 >= 180_000);

/// The key under these ids, by going through the rows.
fn found<'a>(rows: &'a [Row], tid: &[u8], kid: &[u8]) -> Option<&'a [u8]> {
    rows.iter().find(|row| row.tid == tid && row.kid == kid).map(|row| &row.key[..])
}

#[test]
fn ids_that_are_there_and_such_as_are_near() {
    let mut seeded = Seeded(135);
    let mut beside = Beside::default();
    for turn in 0..600 {
        let rows = if turn % 50 == 0 { tables::rows(64, &mut seeded) } else { few(&mut seeded) };
        let table = laid(&rows);
        for row in &rows {
            assert_eq!(lookup(&table, &row.tid, &row.kid), Some(&row.key[..]));
            beside.lookup(&table, &row.tid, &row.kid);
            beside.lookup(b"", &row.tid, &row.kid);
            for other in &rows {
                assert_eq!(lookup(&table, &row.tid, &other.kid), found(&rows, &row.tid, &other.kid));
                beside.lookup(&table, &row.tid, &other.kid);
            }
        }
        let row = &rows[seeded.below(rows.len())];
        for (tid, kid) in near(row, &mut seeded) {
            assert_eq!(lookup(&table, &tid, &kid), found(&rows, &tid, &kid));
            beside.lookup(&table, &tid, &kid);
        }
    }
    beside.judged(FOUND);
}

#[test]
fn no_row_of_a_bad_table_is_found() {
    let mut seeded = Seeded(136);
    let mut beside = Beside::default();
    for turn in 0..1500 {
        let count = [2, 3, 4, 5, 64][turn % 5];
        let rows = tables::rows(count, &mut seeded);
        let last = rows.last().unwrap();
        let mut strange = last.clone();
        strange.kid[0] = b'/';
        let mut table = laid(&rows);
        let bad = [
            [&table[..], b"\0"].concat(),
            table[..table.len() - 1].to_vec(),
            [table.clone(), last.record()].concat(),
            [table.clone(), rows[0].record()].concat(),
            [table.clone(), records::write(2, &last.body())].concat(),
            laid(&[&rows[..count - 1], &[strange]].concat()),
            laid(&tables::rows(65, &mut seeded)),
        ];
        for table in &bad {
            let row = &rows[seeded.below(count - 1)];
            assert_eq!(lookup(table, &row.tid, &row.kid), None);
            beside.lookup(table, &row.tid, &row.kid);
        }
        // A key may hold anything, so the table stays good and the last row has another one.
        *table.last_mut().unwrap() ^= 1;
        assert!(lookup(&table, &last.tid, &last.kid).is_some_and(|key| key != last.key));
        beside.lookup(&table, &last.tid, &last.kid);
    }
    beside.judged(IN_BAD);
}

#[test]
fn rows_of_edited_tables() {
    let mut seeded = Seeded(137);
    let mut beside = Beside::default();
    for _ in 0..12 {
        let rows = few(&mut seeded);
        let table = laid(&rows);
        let mut turn = 0;
        let mut ask = |table: &[u8]| {
            turn += 1;
            let row = &rows[turn % rows.len()];
            beside.lookup(table, &row.tid, &row.kid);
        };
        tables::each(&rows, &mut ask);
        changes(&table, &mut seeded, &mut ask);
        cuts(&table).for_each(&mut ask);
    }
    beside.judged(IN_EDITED);
}
