//! Calls of narrow, from a seed, and what is wrong with them. Things are put wrong independently of each
//! other, so that any number of them may stand together and the first one counts.

use second::base64url;

use crate::calls::{characters, room, Narrow};
use crate::cases::{fitting, Case, CAVEATS};
use crate::faults::{laid_with, Fault};
use crate::tables;
use crate::tree::Node;
use crate::trees::{self, caveat_of, KINDS};
use crate::{inputs, Seeded};

/// In the order in which they are answered. The first six are the parent's.
#[derive(Clone, Copy, Debug, PartialEq, Eq)]
pub enum Wrong {
    Parent(Fault),
    Caveat,
    Full,
    Size,
    Room,
}

pub const WRONGS: [Wrong; 10] = [
    Wrong::Parent(Fault::Table),
    Wrong::Parent(Fault::Length),
    Wrong::Parent(Fault::Text),
    Wrong::Parent(Fault::Reading),
    Wrong::Parent(Fault::Key),
    Wrong::Parent(Fault::Tag),
    Wrong::Caveat,
    Wrong::Full,
    Wrong::Size,
    Wrong::Room,
];

/// How many bytes a token may have.
pub const BYTES: usize = 4096;

/// The call that narrows this case's token.
pub fn call(case: &Case, caveat: &Node) -> Narrow {
    let text = base64url::encode(&case.token());
    Narrow { table: tables::laid(&case.rows), text, caveat: caveat.laid() }
}

/// The case with one caveat more.
pub fn child(case: &Case, caveat: &Node) -> Case {
    let mut child = case.clone();
    child.caveats.push(caveat.clone());
    child
}

/// A call with these things wrong, how long its room is, and the answer that the first of them must get.
pub fn wrong(wrongs: &[Wrong], seeded: &mut Seeded) -> (Narrow, usize, u32) {
    let is = |wrong| wrongs.contains(&wrong);
    let count = [0, 1, 2, 3, 12, 21, 22, 23, 24, 62, 63][seeded.below(11)];
    let case = fitting(if is(Wrong::Full) { CAVEATS } else { count }, seeded);
    let added = added(&case, is(Wrong::Size), seeded);
    let room = room(characters(child(&case, &added).length()), is(Wrong::Room), seeded);
    let (caveat, cav) = if is(Wrong::Caveat) { bad_caveat(&added, seeded) } else { (added.laid(), 0) };
    let faults: Vec<Fault> = wrongs.iter().filter_map(of_parent).collect();
    let (triple, reading) = laid_with(case, &faults, seeded);
    let numbers = [1, 5, 3, reading, 7, 8, cav, 34, 35, 36];
    let first = WRONGS.iter().position(|&wrong| is(wrong));
    let asked = Narrow { table: triple.table, text: triple.text, caveat };
    (asked, room, first.map_or(0, |first| numbers[first]))
}

fn of_parent(wrong: &Wrong) -> Option<Fault> {
    match wrong {
        Wrong::Parent(fault) => Some(*fault),
        _ => None,
    }
}

/// A good caveat with which the child is too long, often by one byte, or is not, at times just so.
fn added(case: &Case, over: bool, seeded: &mut Seeded) -> Node {
    let left = left(case);
    if over {
        let more = [1, 1, 2, 3, 4100, 8100, 60_000][seeded.below(7)];
        return custom_of(left + more, seeded);
    }
    if seeded.below(6) == 0 {
        return custom_of(left, seeded);
    }
    let caveat = trees::caveat(seeded.below(KINDS.len()), seeded);
    if caveat.laid().len() <= left { caveat } else { caveat_of("amnesia", Node::simple(20)) }
}

/// How many bytes a caveat may have so that the child has as many as a token may have. The head of the
/// array has a byte more from the 24th caveat on.
pub fn left(case: &Case) -> usize {
    let grown = usize::from(case.caveats.len() == 23);
    BYTES - case.length() - grown
}

/// A custom caveat around a byte string that is exactly so long, from 40 bytes on. Where the string's own
/// head grows a length is passed over, and the name makes up for it.
pub fn custom_of(length: usize, seeded: &mut Seeded) -> Node {
    let of = |held: &[u8], name: usize| {
        let (ns, name) = (Node::text(b"ns"), Node::text(&vec![b'n'; name]));
        let value = Node::bytes(held);
        caveat_of("custom", Node::map(vec![("ns", ns), ("cbor", value), ("name", name)]))
    };
    let bare = of(b"", 1).laid().len() - 1;
    let fits = |name: &usize| {
        let rest = length.checked_sub(bare + name - 1)?;
        let heads = [1, 2, 3, 5].into_iter().filter_map(|head| rest.checked_sub(head));
        let held = heads.into_iter().find(|held| held + inputs::head(2, *held as u64).len() == rest)?;
        Some((held, *name))
    };
    let (held, name) = [1, 2, 3, 4].iter().find_map(fits).expect("a custom caveat of that length");
    let caveat = of(&seeded.bytes(held), name);
    assert_eq!(caveat.laid().len(), length);
    caveat
}

/// A caveat that is none, as long as the good one about, and its number.
pub fn bad_caveat(good: &Node, seeded: &mut Seeded) -> (Vec<u8>, u32) {
    let laid = good.laid();
    let more = 1 + seeded.below(3);
    let behind = seeded.bytes(more);
    let with = |at: usize, item: Node| {
        let mut caveat = good.clone();
        caveat.items[at] = item;
        caveat.laid()
    };
    let unknown = ["", "Exp", "customs", "v", "ip"][seeded.below(5)];
    let caveats = [
        ([&laid[..], &behind].concat(), 31),
        (laid.repeat(2), 31),
        ([b"\x81", &laid[..]].concat(), 31),
        (laid[..laid.len() - 1].to_vec(), 31),
        (vec![], 31),
        (good.under(inputs::wide_head(5, 2, 1)).laid(), 31),
        (with(2, Node::text(b"t")), 31),
        (good.saying(1).laid(), 31),
        (out_of_bounds(good, seeded), 32),
        (out_of_bounds(good, seeded), 32),
        (out_of_bounds(good, seeded), 32),
        (out_of_bounds(good, seeded), 32),
        (with(1, Node::text(unknown.as_bytes())), 33),
        (with(2, Node::text(b"w")), 33),
        (with(0, Node::text(b"T")), 33),
        (good.saying(3).laid(), 33),
    ];
    caveats[seeded.below(caveats.len())].clone()
}

/// A caveat with something too long, too many, too deep or too large: a custom one in its namespace, so
/// that it stays as long as it is.
fn out_of_bounds(good: &Node, seeded: &mut Seeded) -> Vec<u8> {
    if good.items[1].content == b"custom" {
        let mut caveat = good.clone();
        caveat.items[3].items[1] = Node::text(&vec![b'n'; [0, 65][seeded.below(2)]]);
        return caveat.laid();
    }
    let empty = seeded.below(2) == 0;
    let text = |byte: u8, over: usize| Node::text(&vec![byte; if empty { 0 } else { over }]);
    let deep = trees::nested(5, Node::number(0));
    let demands = [
        ("tenant", text(b't', 65)),
        ("aud", text(b'a', 129)),
        ("path_prefix", text(b'/', 257)),
        ("method", Node::array(vec![]).saying(17)),
        ("rate", trees::rate(1 << 32, 0)),
        ("rate", trees::rate(0, u64::MAX)),
        ("custom", trees::custom(deep, seeded)),
    ];
    let (t, v) = &demands[seeded.below(demands.len())];
    caveat_of(t, v.clone()).laid()
}
