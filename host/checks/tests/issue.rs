//! Issue: the proved one beside the second program's, the whole room looked at. What a call is made for is
//! held to as well, so that a slip which both share shows too.

use checks::calls::{Calls, Issue};
use checks::cases::fitting_for;
use checks::edits::{changes, cuts, spoiled};
use checks::fitting::{self, Broken};
use checks::issuing::{call, fresh, wrong, Wrong, WRONGS};
use checks::tables::{self, Row};
use checks::tree::Node;
use checks::verdicts::Verdicts;
use checks::{damage, requests, trees, Seeded};
use second::base64url;

/// Every number that issue can answer with.
const ANSWERS: [u32; 7] = [0, 1, 4, 5, 6, 7, 36];
/// The longest text.
const TEXT: usize = 5462;

/// How many calls each test from a seed compares at least.
const FAULTY: usize = 12_000;
const SETS: usize = 3200;
const FRESH: usize = 12_000;
const SCOPES: usize = 20_000;
const TABLES: usize = 8000;
const IDS: usize = 8000;

/// All of these together.
const _: () = assert!(FAULTY + SETS + FRESH + SCOPES + TABLES + IDS >= 60_000);

#[test]
fn every_answer_is_given_by_what_is_wrong_first_whatever_else_is_wrong_behind_it() {
    let mut seeded = Seeded(180);
    let mut calls = Calls::default();
    for turn in 0..FAULTY {
        // With nothing wrong at all once in a while.
        let first = turn % (WRONGS.len() + 2);
        let behind = WRONGS.iter().skip(first + 1).filter(|_| seeded.below(2) == 0);
        let wrongs: Vec<Wrong> = WRONGS.iter().skip(first).take(1).chain(behind).copied().collect();
        let (asked, room, wanted) = wrong(&wrongs, &mut seeded);
        calls.expect(&asked, room, wanted);
    }
    calls.met(FAULTY, &ANSWERS, 300);
}

#[test]
fn every_set_of_things_wrong_and_so_every_two_checks_that_follow_each_other() {
    let mut seeded = Seeded(181);
    let mut calls = Calls::default();
    for turn in 0..SETS {
        let chosen = WRONGS.iter().enumerate().filter(|(at, _)| turn >> at & 1 == 1);
        let wrongs: Vec<Wrong> = chosen.map(|(_, &wrong)| wrong).collect();
        let (asked, room, wanted) = wrong(&wrongs, &mut seeded);
        calls.expect(&asked, room, wanted);
    }
    calls.met(SETS, &ANSWERS, 100);
}

#[test]
fn fresh_tokens_are_what_their_parts_lay_out_in_room_that_is_enough() {
    let mut seeded = Seeded(182);
    let mut calls = Calls::default();
    while calls.compared() < FRESH {
        let case = fresh(&mut seeded);
        calls.hand_out(&call(&case), &case.laid().text, &mut seeded);
    }
    calls.met(FRESH, &[0, 36], FRESH / 3);
}

#[test]
fn rooms_of_every_length() {
    let mut seeded = Seeded(183);
    let mut calls = Calls::default();
    for _ in 0..6 {
        let case = fresh(&mut seeded);
        let text = case.laid().text;
        for room in (0..text.len() + 70).chain([TEXT, 65_536, 1 << 20]) {
            calls.expect(&call(&case), room, if room < text.len() { 36 } else { 0 });
        }
    }
    calls.met(1000, &[0, 36], 400);
}

#[test]
fn damaged_scopes() {
    let mut seeded = Seeded(184);
    let mut calls = Calls::default();
    while calls.compared() < SCOPES {
        let case = fresh(&mut seeded);
        let good = call(&case);
        let mut ask = |scope: &[u8]| {
            let handed = calls.call(&Issue { scope: scope.to_vec(), ..good.clone() }, TEXT);
            assert_eq!(handed.is_ok(), second::scope::read(scope, 0).is_ok_and(|read| read.next == scope.len()));
        };
        damage::each(&case.scope, &mut ask);
        cuts(&good.scope).for_each(&mut ask);
        for _ in 0..50 {
            ask(&spoiled(&good.scope, &mut seeded));
        }
    }
    calls.met(SCOPES, &[0, 4, 5, 6], 500);
}

#[test]
fn damaged_tables() {
    let mut seeded = Seeded(185);
    let mut calls = Calls::default();
    while calls.compared() < TABLES {
        let case = fresh(&mut seeded);
        let good = call(&case);
        let mut ask = |table: &[u8]| {
            let _ = calls.call(&Issue { table: table.to_vec(), ..good.clone() }, TEXT);
        };
        tables::each(&case.rows, &mut ask);
        changes(&good.table, &mut seeded, &mut ask);
        cuts(&good.table).for_each(&mut ask);
    }
    calls.met(TABLES, &[0, 1, 7], 100);
}

#[test]
fn ids_near_those_of_every_row() {
    let mut seeded = Seeded(186);
    let mut calls = Calls::default();
    while calls.compared() < IDS {
        let case = fresh(&mut seeded);
        for row in &case.rows {
            let own = (row.tid.clone(), row.kid.clone());
            for (tid, kid) in tables::near(row, &mut seeded).into_iter().chain([own]) {
                let there = case.rows.iter().any(|row| (&row.tid, &row.kid) == (&tid, &kid));
                calls.expect(&Issue { tid, kid, ..call(&case) }, TEXT, if there { 0 } else { 7 });
            }
        }
    }
    calls.met(IDS, &[0, 7], 50);
}

#[test]
fn each_row_of_a_full_table_tags_with_its_own_key() {
    let mut seeded = Seeded(187);
    let mut calls = Calls::default();
    let mut case = fresh(&mut seeded);
    case.rows = tables::rows(64, &mut seeded);
    for row in case.rows.clone() {
        case.row = row;
        calls.hand_out(&call(&case), &case.laid().text, &mut seeded);
    }
    calls.met(64 * 6, &[0, 36], 64 * 3);
}

#[test]
fn the_longest_fresh_token_has_752_bytes() {
    let mut seeded = Seeded(188);
    let mut case = fresh(&mut seeded);
    case.row = Row::new(&[b'i'; 64], &[b'k'; 64], &mut seeded);
    case.rows = vec![case.row.clone()];
    case.scope = Node::map(vec![
        ("prefix", Node::text(&b"/p".repeat(128))),
        ("methods", Node::array(vec![Node::text(&[b'M'; 16]); 16])),
        ("max_bytes", Node::number(u64::MAX)),
    ]);
    assert_eq!(case.token().len(), 752);
    let mut calls = Calls::default();
    calls.hand_out(&call(&case), &case.laid().text, &mut seeded);
}

#[test]
fn a_fresh_token_allows_what_its_scope_does() {
    let mut seeded = Seeded(189);
    let (mut calls, mut verdicts) = (Calls::default(), Verdicts::default());
    for turn in 0..2000 {
        let mut request = requests::any(&mut seeded);
        request.body_size = request.body_size.max(1);
        let mut case = fitting_for(request, 0, &mut seeded);
        let is = |bit: u32| turn >> bit & 1 == 1;
        let broken = Broken { method: is(0), path: is(1), bytes: is(2) };
        case.scope = fitting::scope(broken, &case.request, &mut seeded);
        let text = calls.call(&call(&case), TEXT).expect("a good scope and a key");
        let wanted = [(is(0), 10), (is(1), 11), (is(2), 12)].into_iter().find(|(broken, _)| *broken);
        verdicts.expect(&case.with_text(text), wanted.map_or(0, |(_, number)| number));
    }
    calls.met(2000, &[0], 2000);
    verdicts.met(2000, [0, 10, 11, 12], 200);
}

#[test]
fn document_01s_scope_byte_by_byte() {
    let key = b"whats the Elvish word for friend";
    let scope = b"\xa1\x67methods\x81\x63GET";
    let table = [b"\x35\0\x01\0\x08tenant-1\x0bkid-2025-10", &key[..]].concat();
    let first = [b"ron-auth/v1\0init", &b"tenant-1kid-2025-10"[..], scope].concat();
    let tag = *blake3::keyed_hash(key, &first).as_bytes();
    let behind = b"\x61v\x01\x63kid\x6bkid-2025-10\x63tid\x68tenant-1";
    let token = [b"\xa6\x61c\x80\x61r", &scope[..], b"\x61s\x58\x20", &tag, behind].concat();
    let text = base64url::encode(&token);
    let asked = Issue { table, tid: b"tenant-1".to_vec(), kid: b"kid-2025-10".to_vec(), scope: scope.to_vec() };
    Calls::default().hand_out(&asked, &text, &mut Seeded(190));
}

#[test]
fn scopes_in_every_order_of_their_keys() {
    let mut seeded = Seeded(191);
    let mut calls = Calls::default();
    let case = fresh(&mut seeded);
    let value = |key: &str| match key {
        "prefix" => b"\x61/".to_vec(),
        "methods" => trees::methods(1, &mut Seeded(1)).laid(),
        _ => vec![7],
    };
    checks::edits::maps(&["prefix", "methods", "max_bytes", "kid"], 4, value, |map| {
        let handed = calls.call(&Issue { scope: map.bytes, ..call(&case) }, TEXT);
        let order = ["prefix", "methods", "max_bytes"];
        let places: Vec<_> = map.keys.iter().map(|key| order.iter().position(|known| known == key)).collect();
        let ascending = places.windows(2).all(|two| two[0] < two[1]) && !places.contains(&None);
        let good = map.whole && ascending && map.keys.contains(&"methods");
        assert_eq!(handed.is_ok(), good, "{:?}", map.keys);
    });
    calls.met(5000, &[0, 4, 6], 4);
}
