//! Calls of issue, from a seed, and what is wrong with them. Things are put wrong independently of each
//! other, so that any number of them may stand together and the first one counts.

use crate::calls::{characters, room, Issue};
use crate::cases::{fitting, Case};
use crate::faults::bad_table;
use crate::tables;
use crate::tree::Node;
use crate::trees;
use crate::{inputs, Seeded};

/// In the order in which they are answered.
#[derive(Clone, Copy, Debug, PartialEq, Eq)]
pub enum Wrong {
    Table,
    Scope,
    Ids,
    Room,
}

pub const WRONGS: [Wrong; 4] = [Wrong::Table, Wrong::Scope, Wrong::Ids, Wrong::Room];

/// A fresh token's case with any good scope.
pub fn fresh(seeded: &mut Seeded) -> Case {
    let mut case = fitting(0, seeded);
    if seeded.below(4) > 0 {
        case.scope = trees::scope(seeded);
    }
    case
}

/// The call that hands out this case's token before it had caveats.
pub fn call(case: &Case) -> Issue {
    let (tid, kid) = (case.row.tid.clone(), case.row.kid.clone());
    Issue { table: tables::laid(&case.rows), tid, kid, scope: case.scope.laid() }
}

/// A call with these things wrong, how long its room is, and the answer that the first of them must get.
pub fn wrong(wrongs: &[Wrong], seeded: &mut Seeded) -> (Issue, usize, u32) {
    let is = |wrong| wrongs.contains(&wrong);
    let case = fresh(seeded);
    let mut asked = call(&case);
    let room = room(characters(case.length()), is(Wrong::Room), seeded);
    let mut reading = 0;
    if is(Wrong::Table) {
        asked.table = bad_table(&case.rows, seeded);
    }
    if is(Wrong::Scope) {
        (asked.scope, reading) = bad_scope(&case.scope, seeded);
    }
    if is(Wrong::Ids) {
        (asked.tid, asked.kid) = other_ids(&case, seeded);
    }
    let numbers = [1, reading, 7, 36];
    let first = WRONGS.iter().position(|&wrong| is(wrong));
    (asked, room, first.map_or(0, |first| numbers[first]))
}

/// Ids that no row has, many of which none can have.
fn other_ids(case: &Case, seeded: &mut Seeded) -> (Vec<u8>, Vec<u8>) {
    let mut ids = tables::near(&case.row, seeded);
    ids.retain(|(tid, kid)| case.rows.iter().all(|row| (&row.tid, &row.kid) != (tid, kid)));
    ids.swap_remove(seeded.below(ids.len()))
}

/// A scope that is none, and its number.
fn bad_scope(good: &Node, seeded: &mut Seeded) -> (Vec<u8>, u32) {
    let laid = good.laid();
    let prefix = |length| ("prefix", Node::text(&vec![b'/'; length]));
    let methods = |methods| Node::map(vec![("methods", methods)]);
    let unknown = |key| Node::map(vec![("methods", Node::array(vec![])), (key, Node::number(0))]);
    let more = 1 + seeded.below(3);
    let behind = seeded.bytes(more);
    let scopes = [
        ([&laid[..], &behind].concat(), 4),
        (laid.repeat(2), 4),
        (laid[..laid.len() - 1].to_vec(), 4),
        (vec![], 4),
        (good.under(inputs::wide_head(5, good.number, 1)).laid(), 4),
        (methods(Node::array(vec![Node::text(b"GEt")])).laid(), 4),
        (Node::map(vec![prefix(1)]).laid(), 4),
        (Node::map(vec![prefix([0, 257][seeded.below(2)])]).laid(), 5),
        (methods(Node::array(vec![]).saying(17)).laid(), 5),
        (methods(Node::array(vec![Node::text(&[b'M'; 17])])).laid(), 5),
        (good.saying(4).laid(), 6),
        (unknown("kid").laid(), 6),
        (unknown("max-bytes").laid(), 6),
    ];
    scopes[seeded.below(scopes.len())].clone()
}
