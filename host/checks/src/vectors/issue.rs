//! The file issue.json. The texts are the second program's; which calls have one is said here.

use serde_json::Value;

use super::json::{answered, file as file_of, hexed, object, text};
use super::parts::{fresh, methods, row, rows, scope, scope_of, words};
use crate::calls::characters;
use crate::cases::Case;
use crate::tables::{self, Row};
use crate::tree::Node;

/// How many characters the longest text has.
const ENOUGH: usize = 5462;

/// A call of issue, and the answer that it must get.
struct Issue {
    answer: u32,
    name: &'static str,
    comment: &'static str,
    table: Vec<u8>,
    tid: String,
    kid: String,
    scope: Vec<u8>,
    room: usize,
}

pub fn file() -> String {
    let about = "Calls of issue: a key table's records, a tid, a kid, a scope and the length of the room; the \
                 answer and, where it is 0, the text at the front of the room.";
    let groups = [done(), rooms(), longest(), refused_scopes(), refused_ids(), order()];
    file_of(about, groups.iter().flatten().map(laid).collect())
}

fn laid(case: &Issue) -> Value {
    let mut fields = vec![
        ("name", case.name.into()),
        ("comment", case.comment.into()),
        ("table", hexed(&case.table)),
        ("tid", case.tid.clone().into()),
        ("kid", case.kid.clone().into()),
        ("scope", hexed(&case.scope)),
        ("room", case.room.into()),
    ];
    fields.extend(answered(case.answer, "done"));
    if case.answer == 0 {
        let mut room = vec![0; case.room];
        let written =
            second::issue(&case.table, case.tid.as_bytes(), case.kid.as_bytes(), &case.scope, &mut room);
        fields.push(("text", text(&room[..written.length as usize])));
    }
    object(fields)
}

/// The workshop's call with a scope.
fn of(answer: u32, name: &'static str, comment: &'static str, scope: Vec<u8>) -> Issue {
    let (tid, kid) = ("workshop".to_owned(), "kid-2025-10".to_owned());
    Issue { answer, name, comment, table: tables::laid(&rows()), tid, kid, scope, room: ENOUGH }
}

fn done() -> Vec<Issue> {
    let repeated = scope_of(None, &["PUT", "GET", "PUT"], None);
    vec![
        of(0, "methods-alone", "the least scope: GET only", scope_of(None, &["GET"], None).laid()),
        of(0, "whole-scope", "prefix, methods and max_bytes", scope().laid()),
        of(0, "methods-none", "an empty list, which holds for nothing", scope_of(None, &[], None).laid()),
        of(0, "methods-repeated", "order and repeats are kept", repeated.laid()),
        of(0, "max_bytes-2-32", "a number of eight bytes", scope_of(None, &["GET"], Some(1 << 32)).laid()),
    ]
}

fn rooms() -> Vec<Issue> {
    let length = characters(fresh().length());
    let room = |answer, name, comment, room| Issue { room, ..of(answer, name, comment, scope().laid()) };
    vec![
        room(0, "room-exact", "as much room as the text takes", length),
        room(36, "room-one-less", "a byte less", length - 1),
        room(36, "room-none", "no room", 0),
    ]
}

/// The longest fresh token: 752 bytes.
fn longest() -> Vec<Issue> {
    let (prefix, method) = (format!("/{}", "p".repeat(255)), "M".repeat(16));
    let scope = scope_of(Some(&prefix), &vec![method.as_str(); 16], Some(u64::MAX));
    let row = row(&"t".repeat(64), &"k".repeat(64));
    assert_eq!(Case { row: row.clone(), scope: scope.clone(), ..fresh() }.length(), 752);
    let call = |answer, name, comment, room| {
        let ids = |id: &[u8]| String::from_utf8_lossy(id).into_owned();
        let (tid, kid, table) = (ids(&row.tid), ids(&row.kid), row.record());
        Issue { tid, kid, table, room, ..of(answer, name, comment, scope.laid()) }
    };
    vec![
        call(0, "longest", "752 bytes, and room for their 1,003 characters", 1003),
        call(36, "longest-one-less", "and room for 1,002", 1002),
    ]
}

fn refused_scopes() -> Vec<Issue> {
    let map = |entries| Node::map(entries).laid();
    let list = || ("methods", methods(&["GET"]));
    let many = scope_of(None, &["GET"; 17], None);
    vec![
        of(4, "scope-missing", "no bytes", vec![]),
        of(4, "scope-left-over", "a byte behind the scope", [scope().laid(), vec![0]].concat()),
        of(4, "scope-cut", "the last byte is missing", scope().laid()[..scope().laid().len() - 1].to_vec()),
        of(4, "scope-long-head", "512 in a head of five bytes", {
            map(vec![list(), ("max_bytes", Node::raw(b"\x1a\0\0\x02\0"))])
        }),
        of(4, "scope-no-methods", "max_bytes alone", map(vec![("max_bytes", Node::number(1))])),
        of(4, "scope-prefix-percent", "% in the prefix", map(vec![("prefix", words("/relay/%31")), list()])),
        of(4, "scope-prefix-slashes", "// in the prefix", map(vec![("prefix", words("/relay//1")), list()])),
        of(4, "scope-prefix-dots", "a segment ..", map(vec![("prefix", words("/relay/..")), list()])),
        of(0, "scope-prefix-hidden", "a segment .1", map(vec![("prefix", words("/relay/.1")), list()])),
        of(5, "scope-prefix-empty", "an empty prefix", map(vec![("prefix", words("")), list()])),
        of(5, "scope-methods-17", "one method more than there may be", many.laid()),
        of(6, "scope-four-entries", "a map of four", b"\xa4".to_vec()),
        of(6, "scope-key-unknown", "zone behind methods", map(vec![list(), ("zone", words("a"))])),
    ]
}

fn refused_ids() -> Vec<Issue> {
    let ids = |name, comment, tid: &str, kid: &str| {
        let (tid, kid) = (tid.to_owned(), kid.to_owned());
        Issue { tid, kid, ..of(7, name, comment, scope().laid()) }
    };
    let long = "w".repeat(65);
    vec![
        ids("kid-gone", "the table has no such kid", "workshop", "kid-2024-10"),
        ids("kid-of-other-tenant", "the contractor's kid under the workshop", "workshop", "kid-2025-11"),
        ids("tid-empty", "an empty tid is of a wrong form, and no key is under it", "", "kid-2025-10"),
        ids("tid-65", "a tid that is too long", &long, "kid-2025-10"),
        ids("kid-blank", "a kid with a blank", "workshop", "kid 2025-10"),
        Issue { table: vec![], ..of(7, "table-empty", "a table without rows", scope().laid()) },
    ]
}

fn order() -> Vec<Issue> {
    let cut = tables::laid(&rows())[1..].to_vec();
    let reversed: Vec<Row> = rows().into_iter().rev().collect();
    let nobody = String::new();
    vec![
        Issue { table: tables::laid(&reversed), ..of(1, "table-reversed", "rows out of order", scope().laid()) },
        Issue { table: cut, room: 0, ..of(1, "order-table-scope", "a bad table, no scope and no room", vec![]) },
        Issue { tid: nobody.clone(), ..of(4, "order-scope-tid", "no scope, and an empty tid", vec![]) },
        Issue { tid: nobody, room: 0, ..of(7, "order-tid-room", "an empty tid, and no room", scope().laid()) },
    ]
}
